#!/usr/bin/env python3
"""Compares what tools/view answers a browser: waits with a plain reckoning and with the other tools, and filters, triggers and
strikes with what the program prints.

    [HISTDESK=PROGRAM] python_view.py [TEST]...

PROGRAM is histdesk; without it, the tests that run it are skipped."""

import base64
import gzip
import json
import os
import random
import re
import shlex
import struct
import subprocess
import sys
import tempfile
import unittest
import unittest.mock
import warnings

# Nothing is written beside the sources.
sys.dont_write_bytecode = True

HERE = os.path.dirname(os.path.realpath(__file__))
PYTHON = os.path.realpath(os.path.join(HERE, "..", "..", "python"))
TOOLS = os.path.realpath(os.path.join(HERE, "..", "..", "tools"))
EXAMPLES = os.path.realpath(os.path.join(HERE, "..", "..", "examples"))
sys.path[:0] = [PYTHON, HERE, os.path.join(HERE, "..", "model")]
HISTDESK = os.environ.get("HISTDESK")

import copies
import histdesk
import plain_waits
import recordings
from histdesk import _schema
from histdesk.desk import recording as desk_recording
from histdesk.explain.stretches import Stretch, stretches_of
from histdesk.view import model, server, sources
from histdesk.view.thinning import thin
from histdesk.waiting import waits as waiting_waits
from python_answers import at_micros
from python_runner import main
from recordings import Place, switch, text_of, waking

with_program = unittest.skipUnless(HISTDESK, "no program was named")

COLUMNS = [
    ("begin", "d"),
    ("micros", "I"),
    ("end_line", "I"),
    ("pid", "i"),
    ("name", "I"),
    ("prio", "i"),
    ("begin_line", "I"),
    ("begin_cpu", "H"),
    ("end_cpu", "H"),
    ("kind", "B"),
    ("doubtful", "B"),
]
KINDS = ["woken", "new", "preempted"]
# How many events a desk holds.
DESK = 1048576
# Filters, by their event, and the lines that they mean.
FILTERS = {
    ("sched_waking", "pid < 110"): rb"sched_waking: .* pid=10[0-9] ",
    ("sched_waking", "pid == 104 || pid > 110"): rb"sched_waking: .* pid=(104|11[1-9]|1[2-9][0-9]) ",
    ("sched_wakeup_new", ""): rb"sched_wakeup_new: ",
    ("sched_switch", 'prev_state == "R+"'): rb"sched_switch: .* prev_state=R\+ ",
    ("sched_switch", "next_pid & 1"): rb"sched_switch: .* next_pid=[0-9]*[13579] ",
}


def recording_of(text, **choice):
    """A text as the package has read it, without warnings."""
    with warnings.catch_warnings():
        warnings.simplefilter("ignore", histdesk.LossWarning)
        return desk_recording.read(text, spare=waiting_waits.SPARE, **choice)


def waits_quietly(trace):
    """The waits of a trace, without warnings."""
    with warnings.catch_warnings():
        warnings.simplefilter("ignore", histdesk.LossWarning)
        return histdesk.waits(trace)


def view_of(*texts):
    """What a page shows of texts."""
    return model.View([model.Side(waits_quietly(text)) for text in texts], "tools/view")


def example(name):
    with open(os.path.join(EXAMPLES, name), "rb") as file:
        return file.read()


def unpacked(content, count):
    """Waits of the binary form, as dictionaries."""
    columns, at = {}, 0
    for name, code in COLUMNS:
        columns[name] = struct.unpack_from(f"<{count}{code}", content, at)
        at += -(-count * struct.calcsize(code) // 8) * 8
    assert at == len(content), (at, len(content))
    return [dict(zip(columns, row)) for row in zip(*columns.values())]


def told(rows, about):
    """Waits of the binary form as the reckoning has them."""
    return [
        recordings.Wait(
            KINDS[row["kind"]],
            row["pid"],
            about["tasks"][row["name"]],
            row["prio"],
            Place(about["first"] + int(row["begin"]), row["begin_cpu"], row["begin_line"]),
            Place(about["first"] + int(row["begin"]) + row["micros"], row["end_cpu"], row["end_line"]),
            bool(row["doubtful"]),
        )
        for row in rows
    ]


def waits_in(view, recording=0):
    """The waits of a view's recording."""
    about = view.about()["recordings"][recording]
    return told(unpacked(view.waits(recording), about["waits"]), about)


def bits_of(text, count):
    """Return the mask that this text holds."""
    content = base64.b64decode(text)
    assert len(content) == (count + 7) // 8
    return [bool(content[at // 8] >> at % 8 & 1) for at in range(count)]


def known_after(view, answer):
    """Return what a page knows of a recording after strikes."""
    about = view.about()["recordings"][0]
    tasks = dict(enumerate(about["tasks"]))
    return {**about, "tasks": {**tasks, **answer["changed"]["tasks"]}}


def after(view, answer):
    """Return the waits after strikes, from the answer to them: those before that are left, and the new ones."""
    about = known_after(view, answer)
    taken = base64.b64decode(answer["changed"]["taken"])
    places = struct.unpack(f"<{len(taken) // 4}I", taken)
    gone = set(places)
    assert list(places) == sorted(gone)
    left = [wait for at, wait in enumerate(waits_in(view)) if at not in gone]
    new = told(unpacked(base64.b64decode(answer["changed"]["new"]), answer["changed"]["count"]), about)
    return left, new


def reckoned(text, strikes, gaps=None):
    """The waits without the events that some filters mean, by the plain reckoning, and how many events each of them means.
    Which of the waits are doubtful is by the gaps that all events show, if no others are given."""
    patterns = [re.compile(FILTERS[one]) for one in strikes]
    lines = text.split(b"\n")
    gaps = plain_waits.gaps_of(text) if gaps is None else gaps
    return plain_waits.waits_of(text, plain_waits.like(patterns), gaps), [
        sum(bool(pattern.search(line)) for line in lines) for pattern in patterns
    ]


def program(*lines, trace):
    """What the program prints of a script over a trace."""
    with tempfile.TemporaryDirectory() as folder:
        paths = [os.path.join(folder, name) for name in ("script", "trace")]
        for path, content in zip(paths, ("".join(f"{line}\n" for line in lines).encode(), trace)):
            with open(path, "wb") as file:
                file.write(content)
        return subprocess.run([HISTDESK, *paths], capture_output=True, check=False).stdout.decode("utf-8", "surrogateescape")


def crowded(seed, count=400):
    """Lines by chance with few stamps, so that many events of a CPU have the same one; none are lost."""
    chance, lines = random.Random(seed), []
    for at in range(count):
        cpu, micros, pid = chance.randrange(3), 1000 + at // 9, 100 + chance.randrange(8)
        if chance.random() < 0.5:
            event = chance.choice(["sched_waking", "sched_waking", "sched_wakeup_new"])
            lines.append(waking(cpu, micros, pid, event=event))
        else:
            before = f"p-{100 + chance.randrange(8)}"
            lines.append(switch(cpu, micros, before, f"w-{pid}", state=chance.choice(["R", "R+", "S"])))
    return text_of(lines)


class Shown(unittest.TestCase):
    """What a view knows of recordings."""

    def test_waits(self):
        texts = {name: known.text for name, known in recordings.all_known().items()}
        texts.update(
            {name: example(name) for name in ("recipes.trace", "who-wakes.trace", "wakeups.trace", "full-table.trace")}
        )
        for name, text in texts.items():
            with self.subTest(name):
                self.assertEqual(waits_in(view_of(text)), plain_waits.waits_of(text))

    def test_waits_known_by_hand(self):
        known = recordings.hole_at_start()
        view = view_of(known.text)
        self.assertEqual(waits_in(view), list(known.waits))
        about = view.about()["recordings"][0]
        self.assertEqual([about[name] for name in ("events", "first", "last", "cpus")], [12, 1000000, 2620761, [0, 1, 2]])
        self.assertEqual(about["holes"], [{"cpu": 2, "after": None, "before": 2250000}])
        self.assertEqual(about["warning"], recording_of(known.text).warning)
        self.assertEqual((about["path"], about["waits"]), (None, 5))
        self.assertEqual(about["remarks"], plain_waits.missing_told(known.text))
        first = unpacked(view.waits(0), 5)[0]
        wanted = [100.0, 1130399, 3, 42, about["tasks"].index("victim"), 120, 2, 0, 0, 0, 1]
        self.assertEqual(list(first.values()), wanted)

    def test_long_waits(self):
        """A wait of more than 71 minutes is shown as one of 71 minutes."""
        view = view_of(text_of([waking(0, 1000, 2), switch(0, 2**33, "<idle>-0", "w-2", state="R")]))
        self.assertEqual([row["micros"] for row in unpacked(view.waits(0), 1)], [4294967295])

    def test_odd_names(self):
        known = recordings.odd_names()
        tasks = view_of(known.text).about()["recordings"][0]["tasks"]
        self.assertLessEqual({wait.name for wait in known.waits}, set(tasks))
        sent = json.loads(server.json_response(tasks).content.decode("ascii"))
        self.assertEqual(sent, tasks)

    def test_nothing(self):
        for text in (b"", b"# tracer: nop\n", text_of([waking(0, 5, 7)]), text_of([switch(3, 5, "a-1", "b-2")])):
            view = view_of(text)
            about = view.about()["recordings"][0]
            self.assertEqual((about["waits"], view.waits(0), about["events"]), (0, b"", text.count(b": sched_")))
            self.assertEqual(view.filter(0, "sched_switch", ""), {"count": 0, "chosen": ""})
            answer = view.strike([("sched_waking", ""), ("sched_switch", "")])
            self.assertEqual((answer["changed"]["count"], answer["rows"]), (0, []))
            self.assertEqual(answer["struck"], [text.count(b": sched_waking"), text.count(b": sched_switch")])
        self.assertEqual(about["cpus"], [3])
        self.assertEqual(view_of(b"").about()["recordings"][0]["first"], None)

    def test_differences(self):
        """What differs between two recordings is what the package says, even after strikes; one recording has no difference."""
        texts = [example("recipes-before.trace"), example("recipes.trace")]
        self.assertEqual(view_of(texts[0]).differences(), {"rows": []})
        self.assertEqual(view_of(texts[0], texts[0]).differences(), {"rows": []})
        for before, after in (texts, texts[::-1], (texts[0], b""), (b"", texts[1])):
            view = view_of(before, after)
            view.strike([("sched_waking", "pid > 0")])
            rows = [
                (row.key, *((side.count, side.p50, side.p99, side.max) if side.count else None for side in row[1:]))
                for row in histdesk.diff(before, after).table("name")
            ]
            told = [
                ((row["task"], row["kind"]), *(row[side] and tuple(row[side].values()) for side in ("before", "after")))
                for row in view.differences()["rows"]
            ]
            self.assertEqual(told, rows)
            self.assertTrue(rows)

    def test_remarks(self):
        text = text_of([waking(0, 5, 7)])
        self.assertEqual(
            view_of(text).about()["recordings"][0]["remarks"],
            [
                "no sched_waking began a wait, so nothing is known of woken ones",
                "no sched_switch began a wait, so nothing is known of preempted ones",
            ],
        )
        side = model.Side(waits_quietly(text), ["a line"])
        self.assertEqual(side.about()["remarks"][0], "a line")

    def test_two(self):
        names = ("recipes-before.trace", "recipes.trace")
        view = view_of(*map(example, names))
        for at, name in enumerate(names):
            self.assertEqual(waits_in(view, at), plain_waits.waits_of(example(name)))
        for number in (-1, 2):
            for ask in (view.waits, lambda at: view.filter(at, "sched_switch", "")):
                with self.assertRaisesRegex(ValueError, f"there is no recording {number}"):
                    ask(number)

    def test_schema(self):
        """The page knows events only by the table of the package."""
        schema = view_of(example("recipes.trace")).about()["schema"]
        self.assertEqual([event["name"] for event in schema["events"]], list(_schema.WAIT_EVENTS))
        for event in schema["events"]:
            self.assertEqual(event["fields"], _schema.field_names(event["name"]))
            self.assertEqual(event["task"], "next_comm" if event["name"] == "sched_switch" else "comm")
        self.assertEqual(schema["ends_with"], "sched_switch")
        kinds = ["sched_waking", "sched_wakeup_new", "sched_switch"]
        self.assertEqual(schema["kinds"], [{"name": name, "begins_with": event} for name, event in zip(KINDS, kinds)])
        page = os.path.join(PYTHON, "histdesk", "view", "page")
        for name in os.listdir(page):
            with open(os.path.join(page, name), encoding="utf-8") as file:
                self.assertEqual(re.findall("sched_[a-z]+", file.read()), [], name)

    def test_stretch_of_time(self):
        """A stretch of time is shown as a recording of only its events; lines are counted from its first event on."""
        text = recordings.simulated(3).text
        stamps = sorted(event.place.stamp for event in plain_waits.events_of(text))
        start, until = stamps[len(stamps) // 4], stamps[-20]
        left = b"\n".join(line for line in text.split(b"\n") if b": sched_" in line and start <= stamp_of(line) < until)
        view = model.View([model.Side(waits_quietly(recording_of(text, start=at_micros(start), until=at_micros(until))))])
        # No CPU begins late or ends early, since the recording has events before and after.
        gaps = [gap for gap in plain_waits.gaps_of(left) if None not in (gap.after, gap.before)]
        self.assertEqual(waits_in(view), plain_waits.waits_of(left, gaps=gaps))
        self.assertIn(f"lines are counted from 1.{start - 1000000:06} on", view.about()["recordings"][0]["remarks"])
        for strikes in ([("sched_waking", "pid < 110")], []):
            answer = view.strike(strikes)
            waits, counts = reckoned(left, strikes, gaps)
            self.assertEqual(sorted(sum(after(view, answer), []), key=lambda wait: wait.end), waits)
            self.assertEqual(answer["struck"], counts)
        first = waits_in(view)[0]
        told = view.wait(0, (first.end.cpu, first.end.line))
        self.assertEqual((told["begin"], told["end"]), (first.begin.stamp, first.end.stamp))
        self.assertGreaterEqual(told["from"], start)
        self.assertIn("part of one", view.script(0, model.AskedTrigger("sched_waking", "", "hist:keys=pid"), [])["refused"])

    def test_chosen_events(self):
        """If events are chosen by name, a desk holds as many as it has room for; lines are those of the whole recording."""
        lines = []
        for at in range(1000, 2000, 100):
            lines += [waking(0, at, 7, target=1), waking(0, at + 3, 7, target=1, event="sched_wakeup")]
            lines.append(switch(1, at + 9, "<idle>-0", "w-7", state="R"))
        side = model.Side(recording_of(text_of(lines), events=["sched_waking", "sched_switch"]), ["a line"])
        view, about = model.View([side]), side.about()
        self.assertEqual((about["events"], about["waits"], about["remarks"][0]), (20, 10, "a line"))
        self.assertEqual([wait.begin.line for wait in waits_in(view)], list(range(1, 20, 2)))
        answer = view.strike([("sched_waking", "pid == 7")])
        self.assertEqual((answer["struck"], answer["changed"]["count"]), ([10], 0))
        marks = [(mark["what"], mark["cpu"], mark["stamp"]) for mark in view.wait(0, (1, 9))["marks"]]
        self.assertEqual(marks, [("woken", 0, 1800), ("ran", 1, 1809)])
        self.assertEqual(view.filter(0, "sched_switch", "next_pid == 7")["count"], 10)
        self.assertIn("part of one", view.script(0, model.AskedTrigger("sched_waking", "", "hist:keys=pid"), [])["refused"])

    def test_any_order(self):
        """If a recording isn't in the order of time, a desk holds its events."""
        known = recordings.simulated(2)
        lines = known.text.split(b"\n")
        text = b"\n".join(sorted((line for line in lines if b": sched_" in line), key=lambda line: line.partition(b"[")[2][:3]))
        side = model.Side(recording_of(text))
        view = model.View([side])
        self.assertEqual(waits_in(view), plain_waits.waits_of(text))
        strikes = [("sched_waking", "pid < 110")]
        waits, counts = reckoned(text, strikes)
        answer = view.strike(strikes)
        self.assertEqual((sorted(sum(after(view, answer), []), key=lambda wait: wait.end), answer["struck"]), (waits, counts))


def stamp_of(line):
    """The stamp of a line."""
    found = re.search(rb" ([0-9]+)\.([0-9]{6}): ", line)
    return int(found[1]) * 1000000 + int(found[2])


class Filters(unittest.TestCase):
    def test_chosen(self):
        """A filter answers with a mask of the waits whose event it means."""
        for seed in range(3):
            text = recordings.simulated(seed).text
            view, waits = view_of(text), plain_waits.waits_of(text)
            for (event, condition), pattern in FILTERS.items():
                answer = view.filter(0, event, condition)
                places = places_of(text, pattern)
                end = "end" if event == "sched_switch" else "begin"
                wanted = [getattr(wait, end) in places and is_of(wait, event) for wait in waits]
                self.assertEqual(bits_of(answer["chosen"], len(waits)), wanted)
                self.assertEqual(answer["count"], sum(wanted))
                self.assertNotIn("new", answer)

    def test_empty(self):
        text = example("recipes.trace")
        view, waits = view_of(text), plain_waits.waits_of(text)
        for blank in ("", "  "):
            self.assertEqual(view.filter(0, "sched_switch", blank)["count"], len(waits))
            self.assertEqual(view.filter(0, "sched_waking", blank)["count"], sum(wait.kind == "woken" for wait in waits))
            self.assertEqual(view.filter(0, "sched_wakeup", blank)["count"], 0)

    def test_refused(self):
        view = view_of(example("recipes.trace"))
        # To a browser, an umlaut is one character, and a character beyond the first plane is two.
        fields = "; sched_waking has comm, pid, prio, target_cpu, common_pid, common_cpu"
        words = {
            "pid >> 100": ("unexpected token", 5, ""),
            'comm == "\u00fc\U0001f600" && nope': ("the event has no such field", 17, fields),
            "nope": ("the event has no such field", 0, fields),
            "next_pid == 3": ("the event has no such field", 0, f"; sched_switch has it{fields}"),
            "pit == 3": ("the event has no such field", 0, "; did you mean pid?"),
            "pid = 3": ("unexpected token", 4, ": = is not an operator; did you mean ==?"),
        }
        for text, (why, at, hint) in words.items():
            answer = view.filter(0, "sched_waking", text)
            self.assertEqual(answer, {"refused": f"the filter can't be read: {why}", "at": at, "hint": hint})
        answer = view.filter(0, "no_event", "pid > 1")
        self.assertEqual(answer, {"refused": "there is no such command or event", "at": None, "hint": ""})
        answer = view.trigger(0, "sched_waking", "hist:keys=pid if prio = 3")
        self.assertEqual((answer["at"], answer["hint"]), (22, ": = is not an operator; did you mean ==?"))
        answer = view.trigger(0, "sched_waking", "hist:kys=pid")
        self.assertEqual((answer["at"], answer["hint"]), (5, "; did you mean keys=?"))


def places_of(text, pattern):
    """Return where the events that a pattern means stand in a text."""
    counts, found = {}, set()
    for line in text.split(b"\n"):
        event = plain_waits.LINE.fullmatch(line.decode("utf-8", "surrogateescape"))
        if event:
            cpu = int(event["cpu"])
            counts[cpu] = counts.get(cpu, 0) + 1
            if re.search(pattern, line):
                found.add(Place(stamp_of(line), cpu, counts[cpu]))
    return found


def is_of(wait, event):
    """Whether an event of that name may begin or end a wait."""
    return event == "sched_switch" or {"sched_waking": "woken", "sched_wakeup_new": "new"}[event] == wait.kind


class Triggers(unittest.TestCase):
    """Tables, compared with those that the program prints."""

    TRIGGERS = [
        ("sched_waking", "hist:keys=pid"),
        ("sched_waking", "hist:keys=comm,prio:vals=target_cpu:sort=hitcount.descending if pid > 100"),
        ("sched_switch", "hist:keys=next_pid.log2,prev_state:size=128"),
        ("sched_switch", "hist:keys=prev_pid.buckets=1000,next_comm:vals=next_prio:sort=next_prio"),
    ]

    @with_program
    def test_tables(self):
        text = example("recipes.trace")
        view = view_of(text)
        for event, trigger in self.TRIGGERS:
            answer = view.trigger(0, event, trigger)
            printed = program("load @1", f"attach {event} {trigger}", "hist 1", "totals 1", trace=text)
            self.assertEqual(shown(answer), rows_of(printed), trigger)
            self.assertEqual(f"# trigger info: {answer['trigger']} [active]", printed.split("\n")[4])
            self.assertEqual(
                list(answer["totals"].values()), list(map(int, re.findall("[a-z]+ ([0-9]+)", printed.split("\n")[-2])))
            )
            self.assertEqual(answer["more"], 0)
        # Nothing stays attached.
        self.assertEqual(view.sides[0].again.held.desk.triggers(), [])

    def test_many_rows(self):
        lines = [waking(0, 1000 + at, 100 + at) for at in range(1500)]
        answer = view_of(text_of(lines)).trigger(0, "sched_waking", "hist:keys=pid")
        self.assertEqual((answer["rows"][999], len(answer["rows"]), answer["more"]), ([1099, 1], 1000, 500))
        self.assertEqual(answer["columns"], ["pid", "hitcount"])
        self.assertEqual(answer["totals"], {"hits": 1500, "entries": 1500, "dropped": 0})

    def test_refused(self):
        view = view_of(example("recipes.trace"))
        # What measures waits isn't there for other triggers to read.
        answers = {
            "": ("the trigger can't be read", None),
            "hist:keys=pid if pid >> 1": ("the trigger can't be read: its filter: unexpected token", 22),
            "hist:keys=next_pid:a=common_timestamp.usecs-$begin0": (
                "no attached trigger saves the variable that it reads",
                None,
            ),
        }
        for text, (why, at) in answers.items():
            answer = view.trigger(0, "sched_switch" if "next" in text else "sched_waking", text)
            self.assertTrue(answer["refused"].startswith(why), answer)
            if at is not None:
                self.assertEqual(answer["at"], at)
        self.assertIn("refused", view.trigger(0, "no_event", "hist:keys=pid"))


def shown(answer):
    """The rows of a table, as the program prints them, by the parts of a key and the sums: texts without spaces at their
    ends."""
    return [[str(part).strip() for part in row] for row in answer["rows"]]


def rows_of(printed):
    """The same of what the program prints."""
    rows = []
    for row in re.findall(r"^\{ (.*) \} (hitcount: .*)$", printed, re.MULTILINE):
        parts = [part.partition(":")[2].strip() for part in row[0].split(", ")]
        rows.append([re.sub(r"^~ ", "", part) for part in parts] + re.findall(r"[^ ]+: +([0-9]+)", row[1]))
    return rows


class OneWait(unittest.TestCase):
    """The strip of a wait."""

    def test_by_hand(self):
        lines = [
            switch(0, 1000, "<idle>-0", "a-1", state="R"),
            switch(1, 1100, "<idle>-0", "c-3", state="R"),
            waking(1, 2000, 2, name="b"),
            switch(0, 2100, "a-1", "d-4", state="S"),
            switch(0, 2250, "d-4", "b-2", state="R+", prio=98),
            switch(1, 2290, "c-3", "<idle>-0", state="D"),
            switch(0, 5000, "b-2", "<idle>-0", state="S"),
        ]
        answer = view_of(text_of(lines)).wait(0, (0, 3))
        about = {
            name: answer[name] for name in ("kind", "task", "pid", "prio", "begin", "end", "cpu", "doubtful", "is_over", "cut")
        }
        wanted = {"kind": "woken", "task": "b", "pid": 2, "prio": 98, "begin": 2000, "end": 2250, "cpu": 0, "doubtful": False}
        self.assertEqual(about, {**wanted, "is_over": True, "cut": False})
        self.assertEqual((answer["from"], answer["until"]), (1950, 2300))
        self.assertEqual(answer["who"], {"task": "<idle>", "pid": 0, "prio": None, "cpu": 1, "context": "hardirq"})
        self.assertEqual([lane["cpu"] for lane in answer["cpus"]], [0, 1])
        self.assertEqual(
            [list(stretch.values()) for stretch in answer["cpus"][0]["stretches"]],
            [
                ["a", 1, 120, 1950, 2100, "S", False],
                ["d", 4, 120, 2100, 2250, "R+", False],
                ["b", 2, 98, 2250, 2300, None, False],
            ],
        )
        self.assertEqual(list(answer["cpus"][0]["stretches"][0]), ["task", "pid", "prio", "begin", "end", "state", "lost"])
        self.assertEqual(
            answer["marks"],
            [{"cpu": 1, "stamp": 2000, "what": "woken"}, {"cpu": 0, "stamp": 2250, "what": "ran"}],
        )

    def test_windows(self):
        view = view_of(example("recipes.trace"))
        about = view.about()["recordings"][0]
        window = model.Window(about["first"] - 500, about["last"] + 500)
        answer = view.wait(0, (0, 24), window)
        self.assertEqual((answer["from"], answer["until"]), (about["first"], about["last"]))
        for lane in answer["cpus"]:
            times = [(stretch["begin"], stretch["end"]) for stretch in lane["stretches"]]
            self.assertEqual((times[0][0], times[-1][1]), (about["first"], about["last"]))
            self.assertEqual([end for _, end in times[:-1]], [begin for begin, _ in times[1:]])
        with self.assertRaisesRegex(ValueError, "until must be after from"):
            view.wait(0, (0, 24), model.Window(7, 7))

    def test_words(self):
        """The text is that of tools/why, except that a page breaks its lines; if an event has no wait, it is the reason."""
        path = os.path.join(EXAMPLES, "recipes.trace")
        view = view_of(path)
        for place in ((0, 24), (1, 49), (3, 3), (2, 5), (0, 1), (9, 1), (1, 1000)):
            said = subprocess.run(
                [sys.executable, os.path.join(TOOLS, "why"), path, "%d:%d" % place], capture_output=True, text=True, check=False
            )
            answer = view.wait(0, place)
            if said.returncode:
                self.assertEqual(said.stderr, f"why: {answer['refused']}\n")
            else:
                fronts, rests = zip(*(text.split("\n\nCPU ", 1) for text in (said.stdout, answer["text"] + "\n")))
                self.assertEqual(*(front.split() for front in fronts))
                self.assertTrue(answer["text"].split("\n")[0].endswith("."))
                # The picture of a page is wider.
                self.assertEqual(*(rest.split("\nWhat ran", 1)[1:] for rest in rests))

    def test_holes(self):
        answer = view_of(recordings.lost_in_middle().text).wait(0, (3, 4))
        self.assertTrue(answer["doubtful"])
        self.assertEqual(answer["holes"], [{"cpu": 3, "after": 5000100, "before": 5600000}])
        lost = [stretch for stretch in answer["cpus"][-1]["stretches"] if stretch["lost"]]
        self.assertEqual([(stretch["begin"], stretch["end"], stretch["pid"]) for stretch in lost], [(5000100, 5600000, None)])

    def test_thin(self):
        """A wait is told from its beginning to its end, whatever runs meanwhile; a part of it has all stretches."""
        lines = [waking(0, 1000000, 7, name="w"), switch(1, 1000001, "<idle>-0", "a-1", state="R")]
        for at in range(6000):
            before, after = f"t-{100 + at % 50}" if at else "<idle>-0", f"t-{100 + (at + 1) % 50}"
            lines.append(switch(0, 1000010 + 10 * at, before, after, state="R"))
        lines.append(switch(1, 1070000, "a-1", "w-7", state="S"))
        view = view_of(text_of(lines))
        answer = view.wait(0, (1, 2))
        self.assertEqual((answer["from"], answer["until"]), (1000000, 1070000))
        self.assertEqual((answer["cut"], answer["thin"]), (False, True))
        busy, other = (lane["stretches"] for lane in answer["cpus"])
        self.assertEqual(
            [(one["pid"], one["begin"], one["end"]) for one in other], [(0, 1000000, 1000001), (1, 1000001, 1070000)]
        )
        # CPU 0 was idle before the first of its 6000 switches, and after each of them it had one task.
        self.assertLessEqual(len(busy), 2500)
        self.assertEqual(sum(one.get("count", 1) for one in busy), 6001)
        self.assertEqual(sum(one.get("busy", one["end"] - one["begin"] if one.get("pid") else 0) for one in busy), 69990)
        self.assertEqual([one["end"] for one in busy[:-1]], [one["begin"] for one in busy[1:]])
        self.assertEqual((busy[-1]["pid"], busy[-1]["begin"]), (100, 1060000))
        part = view.wait(0, (1, 2), model.Window(1010000, 1010500))
        self.assertFalse(part["thin"])
        # The first one ends with the window's first stamp.
        self.assertEqual([one["end"] for one in part["cpus"][0]["stretches"]], list(range(1010000, 1010501, 10)))

    def test_thinned(self):
        """What is put together has the sums of its parts; nothing that is long, or of the task itself, is put together."""
        chance = random.Random(11)
        for _ in range(200):
            ends = sorted(chance.sample(range(1, 5000), chance.randrange(2, 300)))
            pids = [chance.choice([None, 0, 0, 1, 2, 3]) for _ in ends]
            parts = [Stretch(0, begin, end, "t", pid, 120) for begin, end, pid in zip([0, *ends], ends, pids)]
            most = chance.randrange(4, 200)
            told = thin(stretches_of(parts), most, 3)
            span, cells, at = ends[-1], most // 2, 0
            for one in told:
                inside = parts[at : at + one.get("count", 1)]
                at += len(inside)
                self.assertEqual((one["begin"], one["end"]), (inside[0].begin, inside[-1].end))
                self.assertEqual(one["lost"], any(part.pid is None for part in inside))
                if "count" in one:
                    self.assertEqual(one["busy"], sum(part.end - part.begin for part in inside if part.pid))
                    self.assertTrue(all((part.end - part.begin) * cells < span and part.pid != 3 for part in inside))
                    self.assertEqual(len({part.begin * cells // span for part in inside}), 1)
            self.assertEqual(at, len(parts))
            if len(parts) <= most:
                self.assertEqual(len(told), len(parts))
            else:
                self.assertLessEqual(len(told), 3 * cells + 2 * pids.count(3) + 1)


class Strikes(unittest.TestCase):
    """Waits after strikes, compared with the plain reckoning over the text without the struck lines."""

    def check(self, view, text, strikes):
        """Strike, and compare."""
        answer = view.strike(strikes)
        waits, counts = reckoned(text, strikes)
        left, new = after(view, answer)
        self.assertEqual(sorted([*left, *new], key=lambda wait: wait.end), waits)
        self.assertEqual(answer["struck"], counts)
        before, gone, ends = waits_in(view), [], {wait.end for wait in waits}
        gone = sum(wait.end not in ends for wait in before)
        known = {wait.end: wait.begin for wait in before}
        moved = sum(wait.end in known and known[wait.end] != wait.begin for wait in waits)
        fresh = sum(wait.end not in known for wait in waits)
        self.assertEqual(answer["report"][-1], f"{gone} waits are gone, {moved} begin with another event, and {fresh} are new")
        self.assertEqual(rows_told(answer), rows_reckoned(before, waits))
        return answer

    def test_simulated(self):
        for seed in range(4):
            text = recordings.simulated(seed, holes=seed).text
            view = view_of(text)
            for strikes in [[one] for one in FILTERS] + [list(FILTERS)[:2], list(FILTERS)[1:], list(FILTERS), []]:
                with self.subTest(f"{seed} {strikes}"):
                    self.check(view, text, strikes)

    def test_crowded(self):
        """Events of one CPU with one stamp come back in their order."""
        chance = random.Random(7)
        for seed in range(6):
            text = crowded(seed)
            view = view_of(text)
            for _ in range(8):
                self.check(view, text, chance.sample(list(FILTERS), chance.randrange(4)))
            answer = self.check(view, text, [])
            self.assertEqual((answer["changed"]["count"], answer["changed"]["taken"], answer["rows"]), (0, "", []))

    def test_filters_of_struck(self):
        """Filters choose struck events too, and the waits that are new."""
        text = recordings.simulated(1).text
        view = view_of(text)
        masks = {one: view.filter(0, *one) for one in FILTERS}
        for strikes in ([("sched_waking", "pid < 110")], [("sched_switch", "next_pid & 1"), ("sched_wakeup_new", "")]):
            answer = self.check(view, text, strikes)
            _, new = after(view, answer)
            for (event, condition), pattern in FILTERS.items():
                found, places = view.filter(0, event, condition, strikes), places_of(text, pattern)
                self.assertEqual({name: found[name] for name in ("count", "chosen")}, masks[event, condition])
                end = "end" if event == "sched_switch" else "begin"
                wanted = [getattr(wait, end) in places and is_of(wait, event) for wait in new]
                self.assertEqual(bits_of(found["new"], len(new)), wanted)

    def test_report(self):
        view = view_of(example("recipes.trace"))
        answer = view.strike([("sched_waking", "common_pid == 24659")])
        wanted = [
            "without 6 of 68 sched_waking if common_pid == 24659",
            "2 waits are gone, 0 begin with another event, and 0 are new",
        ]
        said = subprocess.run(
            [sys.executable, os.path.join(TOOLS, "diff"), os.path.join(EXAMPLES, "recipes.trace")]
            + ["--without", "sched_waking if common_pid == 24659", "--json"],
            capture_output=True,
            text=True,
            check=False,
        )
        self.assertEqual(answer["report"], wanted)
        rows = json.loads(said.stdout)["rows"]
        self.assertEqual(len(rows), len(answer["rows"]))
        for row in rows:
            mine = next(one for one in answer["rows"] if (one["pid"], one["kind"]) == (row["pid"], row["kind"]))
            self.assertEqual(mine["task"], row["task"])
            for side in ("before", "after"):
                figures = mine[side] or {"count": 0, "p50": None, "p99": None, "max": None}
                self.assertEqual(
                    *(
                        [one[name] for name in ("count", "p50", "p99", "max")]
                        for one in (figures, {name: row[f"{name}_{side}"] for name in ("count", "p50", "p99", "max")})
                    )
                )

    def test_waits_told(self):
        """A wait that begins elsewhere without struck events is told as it is then, if that is asked for."""
        lines = [waking(0, 1000, 2), waking(0, 1100, 2, target=1), switch(0, 1200, "<idle>-0", "w-2", state="R")]
        view = view_of(text_of(lines))
        told = [view.wait(0, (0, 3), strikes=one) for one in ([], [("sched_waking", "target_cpu == 1")])]
        self.assertEqual([one["begin"] for one in told], [1100, 1000])
        self.assertIn(" waited 200 us for CPU 0, ", told[1]["text"])
        self.assertEqual(told[1]["marks"][0], {"cpu": 0, "stamp": 1000, "what": "woken"})
        # If the event ends no wait then, the wait is told as it was.
        self.assertEqual(view.wait(0, (0, 3), strikes=[("sched_waking", "pid == 2")])["begin"], 1100)

    def test_tables(self):
        """A trigger's table is that without the struck events."""
        view = view_of(example("recipes.trace"))
        ask = ("sched_waking", "hist:keys=pid")
        self.assertEqual(view.trigger(0, *ask, [("sched_waking", "pid < 60")])["totals"]["hits"], 64)
        self.assertEqual(view.trigger(0, *ask)["totals"]["hits"], 68)

    def test_questions_know_nothing_of_each_other(self):
        """The answer to a question depends on its own strikes, whatever was asked before."""
        text = recordings.simulated(3).text
        chance, view = random.Random(4), view_of(text)
        lists = [[], *([one] for one in FILTERS), *(list(FILTERS)[:count] for count in range(2, 6))]
        wait = next(wait for wait in plain_waits.waits_of(text) if wait.kind == "woken")
        asks = (
            lambda view, strikes: {**view.strike(strikes), "seconds": None},
            lambda view, strikes: view.filter(0, "sched_switch", "next_pid & 1", strikes),
            lambda view, strikes: view.trigger(0, "sched_waking", "hist:keys=pid", strikes),
            lambda view, strikes: view.wait(0, (wait.end.cpu, wait.end.line), strikes=strikes),
            lambda view, strikes: view.script(0, model.AskedTrigger("sched_waking", "", "hist:keys=pid"), strikes),
        )
        pairs = [(at, ask) for at in range(len(lists)) for ask in range(len(asks))]
        wanted = {(at, ask): asks[ask](view_of(text), lists[at]) for at, ask in pairs}
        self.assertGreater(len(lists), 2 * model.ANSWERS)
        for _ in range(3):
            for at, ask in chance.sample(pairs, len(pairs)):
                self.assertEqual(asks[ask](view, lists[at]), wanted[at, ask], (lists[at], ask))
                self.assertLessEqual(len(view.sides[0]._remainders), model.ANSWERS)
        self.assertEqual(view.about(), view_of(text).about())

    def test_answers_are_kept(self):
        """A recording is read once for all questions about the same strikes, unless others have come in between."""
        view, strikes = view_of(recordings.simulated(1).text), [("sched_waking", "pid < 110")]
        with unittest.mock.patch("histdesk.view.sources.again_without", side_effect=sources.again_without) as read:
            for _ in range(2):
                view.strike(strikes)
                view.filter(0, "sched_switch", "next_pid & 1", strikes)
                view.wait(0, (0, 1), strikes=strikes)
            self.assertEqual(read.call_count, 1)
            for pid in range(model.ANSWERS):
                view.strike([("sched_waking", f"pid == {pid}")])
            view.strike(strikes)
            self.assertEqual(read.call_count, 2 + model.ANSWERS)

    def test_refused(self):
        text = recordings.simulated(2).text
        view = view_of(text)
        kept = [("sched_waking", "pid < 110")]
        _, new = after(view, self.check(view, text, kept))
        self.assertTrue(new)
        answer = view.strike([*kept, ("sched_switch", "next_pid ==> 3")])
        wanted = {"refused": "the filter can't be read: unexpected token", "at": 11, "hint": "", "strike": 1}
        self.assertEqual(answer, wanted)
        for strikes in ([*kept, ("sched_switch", "next_pid ==> 3")], [("other", "")], [("sched_wakeup", "")], [("", "")]):
            for ask in (
                lambda: view.strike(strikes),
                lambda: view.filter(0, "sched_waking", "pid < 110", strikes),
                lambda: view.trigger(0, "sched_waking", "hist:keys=pid", strikes),
                lambda: view.wait(0, (0, 1), strikes=strikes),
                lambda: view.script(0, model.AskedTrigger("sched_waking", "", ""), strikes),
            ):
                if len(strikes) > 1:
                    self.assertEqual(ask(), wanted)
                    continue
                with self.assertRaisesRegex(
                    ValueError, "waits begin and end with sched_waking, sched_wakeup_new, sched_switch"
                ):
                    ask()
        chosen = view.filter(0, "sched_waking", "pid < 110", kept)["new"]
        self.assertEqual(bits_of(chosen, len(new)), [False] * len(new))
        self.check(view, text, kept)

    def test_no_memory(self):
        """If memory runs out in a strike, other questions have the answers that they had."""
        text = recordings.simulated(2).text
        view = view_of(text)
        kept = [("sched_waking", "pid < 110")]
        self.check(view, text, kept)
        new = view.filter(0, "sched_switch", "next_pid & 1", kept)["new"]
        with unittest.mock.patch("histdesk.view.sources.again_without", side_effect=MemoryError):
            with self.assertRaises(MemoryError):
                view.strike([("sched_switch", "next_pid & 1")])
        self.assertEqual(view.filter(0, "sched_switch", "next_pid & 1", kept)["new"], new)
        self.check(view, text, [("sched_switch", "next_pid & 1")])
        self.check(view, text, [("sched_waking", "pid == 104 || pid > 110")])
        self.check(view, text, [])

    def test_tables_of_one_desk_after_the_other(self):
        """A desk without some events also serves if more are struck, and a new one is made if some come back."""
        text = example("recipes.trace")
        view = view_of(text)
        for condition, hits in (("pid < 60", 64), ("pid > 0", 0), ("pid < 60", 64), ("common_pid == 24659", 62), ("", 0)):
            answer = view.trigger(0, "sched_waking", "hist:keys=pid", [("sched_waking", condition)])
            self.assertEqual(answer["totals"]["hits"], hits, condition)
        for strikes, hits in (([("sched_waking", "pid < 60")], 64), ([("sched_waking", "pid < 60"), ("sched_waking", "")], 0)):
            self.assertEqual(view.trigger(0, "sched_waking", "hist:keys=pid", strikes)["totals"]["hits"], hits)

    def test_new_names(self):
        """The task of a new wait may have a name that none had before."""
        lines = [
            waking(0, 1000, 1),
            switch(0, 1100, "<idle>-0", "a-1", state="R"),
            switch(1, 1200, "<idle>-0", "b-1", state="R"),
        ]
        view = view_of(text_of(lines))
        self.assertEqual([(wait.name, wait.micros) for wait in waits_in(view)], [("a", 100)])
        # Without the switch that ran it, the task waits until the other one; nobody knows how that came about.
        for condition in ("common_cpu == 0", "next_pid == 1 && common_cpu == 0"):
            # Each answer has all names that are new in it, since it may go to another page than the one before.
            answer = view.strike([("sched_switch", condition)])
            self.assertEqual(answer["changed"]["tasks"], {1: "b"})
            self.assertEqual([(wait.name, wait.micros) for wait in after(view, answer)[1]], [("b", 200)])
        self.assertEqual(view.about()["recordings"][0]["tasks"], ["a"])
        self.assertEqual(view.strike([])["changed"]["tasks"], {})

    def test_many(self):
        """After thousands of strikes nothing is lost: the last answers are those of a new desk."""
        text = recordings.simulated(5).text
        view, chance, struck = view_of(text), random.Random(5), 0
        pids = sorted({wait.pid for wait in plain_waits.waits_of(text)})
        while struck < 10000:
            strikes = [("sched_waking", f"pid == {pid}") for pid in chance.sample(pids, 6)]
            struck += sum(view.strike(strikes)["struck"])
        other = view_of(text)
        answers = [one.strike(strikes) for one in (view, other)]
        for name in ("changed", "rows", "report", "struck"):
            self.assertEqual(answers[0][name], answers[1][name])
        for event, trigger in Triggers.TRIGGERS:
            self.assertEqual(view.trigger(0, event, trigger, strikes), other.trigger(0, event, trigger, strikes))


def rows_told(answer):
    """The figures of each task and kind that changed."""
    names = ("count", "total", "p50", "p99", "max")
    return {
        (row["pid"], row["kind"]): [row[side] and tuple(row[side][name] for name in names) for side in ("before", "after")]
        for row in answer["rows"]
    }


def rows_reckoned(before, after):
    """The same by the plain reckoning, for each task and kind whose waits are not the same."""
    sides = [plain_waits.keys_of(waits, "task") for waits in (before, after)]
    found = {}
    for key in {**sides[0], **sides[1]}:
        if sides[0].get(key) != sides[1].get(key):
            found[key] = [figures_of(side.get(key, [])) for side in sides]
    return found


def figures_of(waits):
    figures = plain_waits.figures_of(waits, False)
    return tuple(figures[name] for name in ("count", "total", "p50", "p99", "max")) if figures["count"] else None


class Long(unittest.TestCase):
    """A recording of more events than a desk holds: copies of a small one, which the plain reckoning reads."""

    STRIKES = [("sched_waking", "pid == 104 || pid > 110"), ("sched_switch", "next_pid & 1")]

    @classmethod
    def setUpClass(cls):
        cls.copies = copies.Copies(recordings.simulated(4, 400).text)
        cls.count = DESK // len(cls.copies.lines) + 20
        cls.folder = tempfile.TemporaryDirectory()
        cls.addClassCleanup(cls.folder.cleanup)
        cls.path = os.path.join(cls.folder.name, "long.trace")
        with open(cls.path, "wb") as file:
            file.write(cls.copies.text(cls.count))
        cls.waits = cls.copies.waits(plain_waits.waits_of, cls.count)
        cls.view = view_of(cls.path)

    def test_waits(self):
        about = self.view.about()["recordings"][0]
        self.assertEqual((about["events"], about["waits"]), (self.count * len(self.copies.lines), len(self.waits)))
        self.assertGreater(about["events"], DESK)
        self.same(waits_in(self.view), self.waits)

    def same(self, found, wanted):
        """Check that two long lists are the same. `assertEqual` would look all day for what differs in them."""
        self.assertEqual(len(found), len(wanted))
        differ = next((pair for pair in zip(found, wanted) if pair[0] != pair[1]), None)
        self.assertIsNone(differ)

    def test_strikes(self):
        answer = self.view.strike(self.STRIKES)
        left, new = after(self.view, answer)
        counts = [sum(map(bool, map(re.compile(FILTERS[one]).search, self.copies.lines))) for one in self.STRIKES]
        self.assertEqual(answer["struck"], [count * self.count for count in counts])
        wanted = self.copies.waits(lambda text: reckoned(text, self.STRIKES)[0], self.count)
        self.same(sorted([*left, *new], key=lambda wait: wait.end), wanted)
        self.assertTrue(left and new)
        # A filter chooses from the new waits too, and from those that were there before.
        found = self.view.filter(0, "sched_switch", "next_pid == 103", self.STRIKES)
        masks = bits_of(found["chosen"], len(self.waits)), bits_of(found["new"], len(new))
        for waits, mask in zip((self.waits, new), masks):
            self.same(mask, [wait.pid == 103 for wait in waits])
        found = self.view.filter(0, "sched_waking", "common_cpu == 1")
        mask = [wait.kind == "woken" and wait.begin.cpu == 1 for wait in self.waits]
        self.same(bits_of(found["chosen"], len(self.waits)), mask)

    def test_refused(self):
        answer = self.view.filter(0, "sched_switch", "next_pid ==> 3")
        self.assertEqual(answer, {"refused": "the filter can't be read: unexpected token", "at": 11, "hint": ""})

    def test_one_wait(self):
        """A wait far behind is told as the same one near the beginning."""
        # Both are the last wait of a copy after which one more copy comes.
        far, near = self.copies.later(self.waits[-1], -1), self.copies.later(self.waits[-1], 3 - self.count)
        short = view_of(self.copies.text(4))
        told = [view.wait(0, (wait.end.cpu, wait.end.line)) for view, wait in ((self.view, far), (short, near))]
        moved = (self.count - 4) * self.copies.after
        self.assertEqual(told[0]["begin"], told[1]["begin"] + moved)
        self.assertEqual(
            [(lane["cpu"], [(one["task"], one["begin"]) for one in lane["stretches"]]) for lane in told[0]["cpus"]],
            [(lane["cpu"], [(one["task"], one["begin"] + moved) for one in lane["stretches"]]) for lane in told[1]["cpus"]],
        )
        self.assertEqual((told[0]["from"], told[0]["until"]), tuple(told[1][name] + moved for name in ("from", "until")))

    def test_waits_that_lie_together(self):
        """Waits that are told from events that are read once are told as each is by itself."""
        side, count = self.view.sides[0], len(self.waits)
        some = [*range(20), *range(count // 2, count // 2 + 20), *range(0, count, count // 10), *range(count - 20, count)]
        told = list(side.strips(side.waits[sorted(set(some))], 5000))
        self.assertEqual(len(told), len(set(some)))
        for place, strip in told:
            self.assertEqual(strip, side.wait(place))

    def test_first_events(self):
        """A trigger's table and the script are of what a desk holds, and say so."""
        answer = self.view.trigger(0, "sched_waking", "hist:keys=common_cpu")
        lines = [line for line in self.copies.text(self.count).split(b"\n")[:DESK]]
        stamp = re.search(rb" ([0-9]+\.[0-9]+): ", lines[-1])[1].decode()
        self.assertEqual(answer["of"], f"the first {DESK:,} events, to {stamp}")
        self.assertEqual(answer["totals"]["hits"], sum(b": sched_waking: " in line for line in lines))
        answer = self.view.script(0, model.AskedTrigger("sched_waking", "", "hist:keys=pid"), [])
        self.assertEqual(answer["command"], f"./histdesk view.script <(head -n {DESK} {self.path})")
        self.assertEqual(answer["of"], f"the first {DESK:,} events, to {stamp}")


class Scripts(unittest.TestCase):
    """Scripts that the program runs, with the tables and the totals that the page shows."""

    def tables(self, view, path, asked, strikes):
        """What the program prints: the rows and the totals of each table."""
        answer = view.script(0, asked, strikes)
        self.assertEqual(answer["command"], f"./histdesk view.script {path}")
        with open(path, "rb") as file:
            printed = program(*answer["script"].split("\n")[:-1], trace=file.read())
        self.assertNotIn("refused", printed)
        totals = [
            tuple(map(int, found)) for found in re.findall("^hits (.*) entries (.*) dropped (.*)$", printed, re.MULTILINE)
        ]
        return [(rows_of(part), one) for part, one in zip(printed.split("# event histogram\n")[1:], totals)]

    @with_program
    def test_run(self):
        path = os.path.join(EXAMPLES, "recipes.trace")
        view = view_of(path)
        strikes = [("sched_waking", "pid < 60"), ("sched_switch", 'prev_state == "D"')]
        for event, trigger in Triggers.TRIGGERS:
            text, _, condition = trigger.partition(" if ")
            _, printed = self.tables(view, path, model.AskedTrigger(event, condition, f" {text} "), strikes)
            table = view.trigger(0, event, trigger, strikes)
            self.assertEqual((shown(table), tuple(table["totals"].values())), printed)

    @with_program
    def test_waits(self):
        """The first table has the waits that the page shows, of woken tasks or of new ones; with a filter, with strikes."""
        path = os.path.join(EXAMPLES, "recipes.trace")
        view, text = view_of(path), example("recipes.trace")
        filters = {
            ("sched_switch", ""): rb"",
            ("sched_waking", ""): rb"",
            ("sched_waking", "pid == 24651 || pid > 24656"): rb"sched_waking: .* pid=(24651|2465[7-9]|246[6-9].|2[5-9]...) ",
            ("sched_switch", "next_pid & 1"): rb"sched_switch: .* next_pid=[0-9]*[13579] ",
            ("sched_wakeup_new", "pid > 1"): rb"sched_wakeup_new: ",
            ("sched_wakeup_new", "pid < 1"): rb"none",
        }
        for (event, condition), pattern in filters.items():
            found = self.tables(view, path, model.AskedTrigger(event, condition, ""), [])
            kind, places = "new" if "new" in event else "woken", places_of(text, pattern)
            end = "end" if event == "sched_switch" else "begin"
            waits = [wait for wait in plain_waits.waits_of(text) if wait.kind == kind and getattr(wait, end) in places]
            sums = [[int(part) for part in row] for row in found[0][0]]
            wanted = plain_waits.keys_of(waits, "task")
            self.assertEqual(
                sorted(sums), sorted([pid, len(some), sum(wait.micros for wait in some)] for (pid, _), some in wanted.items())
            )
            self.assertEqual((found[0][1][:2], len(found)), ((len(waits), len(wanted)), 1))
        struck = [("sched_waking", "common_pid == 24659")]
        rows, _ = self.tables(view, path, model.AskedTrigger("sched_switch", "", ""), struck)[0]
        # Recipe 11 of docs/GUIDE.md has this row.
        self.assertIn(["24651", "7", "271"], rows)

    @with_program
    def test_names(self):
        """A trigger that saves a variable of the same name as the waits' doesn't collide with it."""
        path = os.path.join(EXAMPLES, "wakeups.trace")
        for name in ("begin", "begin0"):
            trigger = f"hist:keys=pid:{name}=common_timestamp.usecs"
            self.assertEqual(len(self.tables(view_of(path), path, model.AskedTrigger("sched_waking", "", trigger), [])), 2)

    def test_commands(self):
        with tempfile.TemporaryDirectory() as folder:
            path = os.path.join(folder, "my trace.gz")
            with gzip.open(path, "wb") as file:
                file.write(example("wakeups.trace"))
            answer = view_of(path).script(0, model.AskedTrigger("sched_waking", "", "hist:keys=pid"), [])
            self.assertEqual(answer["command"], f"./histdesk view.script <(zcat {shlex.quote(path)})")
            self.assertTrue(answer["script"].endswith("\n# the trigger\nattach sched_waking hist:keys=pid\nhist 4\ntotals 4\n"))
        answer = view_of(example("wakeups.trace")).script(0, model.AskedTrigger("sched_waking", "", ""), [])
        self.assertEqual(answer["command"], "./histdesk view.script TRACE")

    def test_refused(self):
        view = view_of(example("wakeups.trace"))
        asked = model.AskedTrigger("sched_waking", "pid\n> 1", "hist:keys=pid")
        self.assertEqual(view.script(0, asked, [])["refused"], "a line of a script holds no line break")
        asked = model.AskedTrigger("sched_waking", "", "")
        self.assertIn("the filter can't be read", view.script(0, asked, [("sched_waking", "pid >")])["refused"])
        with warnings.catch_warnings():
            warnings.simplefilter("ignore")
            lenient = histdesk.read(example("torn.trace"), lenient=True)
        view = model.View([model.Side(lenient)])
        self.assertIn("lines which can't be read", view.script(0, asked, [])["refused"])


if __name__ == "__main__":
    sys.exit(main())
