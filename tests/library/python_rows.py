#!/usr/bin/env python3
"""Runs scripts through the Python package, command by command, and compares what that gives with what the program prints.

    [HISTDESK_ROWS=FOLDER] python_rows.py [TEST]...
    python_rows.py --script SCRIPT [TRACE]...

A row is a folder of tests/rows, and of FOLDER: a script, trace1 and on, the program's whole output in `expected`, and its
status. The output and the status of each row are those of its folder, and the package's other answers say what the texts say:

- the rows, printed as the text of the table has them, are its rows, and the totals are its totals;
- the latencies are printed line by line from what the package answers; each lies between two held events;
- the events of a CPU, printed as `list` has them, are its text, and each is what the desk has at its place;
- if an edit has a report, it names each row that came, went or changed, and none twice;
- if pandas is there, its tables are as long as the lists.

With `--script` the output is printed, for comparing it with another program's. The library is found as the package finds it.
"""

import os
import re
import sys
from pathlib import Path

# Nothing is written beside the sources.
sys.dont_write_bytecode = True

HERE = os.path.dirname(os.path.realpath(__file__))
sys.path.insert(0, os.path.join(HERE, "..", "..", "python"))

import histdesk
import python_runner

try:
    import pandas
except ImportError:
    pandas = None

EVENTS = {b"sched_waking", b"sched_wakeup", b"sched_wakeup_new", b"sched_switch", b"wakeup_latency"}
MASK = 2**64 - 1
# If all tables together have more rows, they are not compared before and after each edit.
MOST_ROWS = 300


class ScriptRefused(Exception):
    """The script itself refuses a line: the number of the refusal."""


class Differs(Exception):
    """Two answers of the package don't say the same: which answers."""


class Script:
    """A desk that performs the lines of a script."""

    def __init__(self, traces):
        self.desk, self.traces = histdesk.Desk(), traces

    def output(self, line):
        """What a line prints, with its end of line, and whether it was refused."""
        try:
            text = self.perform(line)
        except ScriptRefused as refused:
            return b"refused %d\n" % refused.args[0], True
        except histdesk.Refused as refused:
            return encoded(refused.text) + b"\n", True
        return text if not text or text.endswith(b"\n") else text + b"\n", False

    def perform(self, line):
        """What an accepted line prints."""
        if len(line) > 8192:
            raise ScriptRefused(16)
        if not line.strip(b" ") or line.startswith(b"#"):
            return b""
        if line == b"insert" or line.startswith(b"insert "):
            edit = self.edit(lambda: self.desk.insert(line[7:]))
            return b"inserted %d:%d" % (edit.cpu, edit.line)
        word, rest = split(line.strip(b" "))
        commands = {b"load": self.load, b"unload": self.unload, b"strike": self.strike, b"list": self.list}
        commands.update({b"attach": self.attach, b"filter": self.filter, b"remove": self.remove})
        commands.update({b"hist": self.hist, b"totals": self.totals, b"lat": self.lat})
        if word not in commands:
            raise ScriptRefused(16)
        return commands[word](rest)

    # ---- edits

    def load(self, rest):
        (number,) = numbers(b"@", rest)
        if not 1 <= number <= len(self.traces):
            raise ScriptRefused(2)
        return b"loaded %d" % self.desk.load(self.traces[number - 1])

    def attach(self, rest):
        event, text = split(rest)
        if event not in EVENTS:
            raise ScriptRefused(16)
        return b"attached %d" % self.desk.attach(event.decode(), text).id

    def unload(self, rest):
        (cpu,) = numbers(b"", rest)
        return b"unloaded %d" % self.desk.unload(cpu)

    def strike(self, rest):
        cpu, _, line = rest.partition(b":")
        cpu, line = numbers(b"", cpu, line)
        edit = self.edit(lambda: self.desk.strike(cpu, line))
        return b"struck %d:%d" % (edit.cpu, edit.line)

    def filter(self, rest):
        number, rest = split(rest)
        how, text = split(rest)
        (number,) = numbers(b"", number)
        if how != b"if" and (how != b"none" or text):
            raise ScriptRefused(16)
        trigger = self.desk.trigger(number)
        trigger.filter = text if how == b"if" else None
        same("filter", trigger.canonical.partition(" if ")[2], trigger.filter or "")
        return b"refiltered %d" % number

    def remove(self, rest):
        (number,) = numbers(b"", rest)
        self.desk.trigger(number).remove()
        return b"removed %d" % number

    def edit(self, do):
        """Make an edit; its report has to name each row that came, went or changed, and none twice."""
        before = self.tables()
        edit = do()
        same("the rows that an edit names", len(edit.changed or []), len(set(edit.changed or [])))
        after = self.tables()
        if edit.changed is not None and before is not None and after is not None:
            named = {(row.trigger, row.key) for row in edit.changed}
            differing = {place for place in before.keys() | after.keys() if before.get(place) != after.get(place)}
            same("rows that changed and aren't named", differing - named, set())
        return edit

    def tables(self):
        """Each row of all tables, by its trigger and key; None if they are many."""
        triggers = self.desk.triggers()
        if sum(trigger.totals().entries for trigger in triggers) > MOST_ROWS:
            return None
        return {(trigger.id, key_of(trigger, row)): row for trigger in triggers for row in trigger.rows()}

    # ---- answers

    def hist(self, rest):
        (number,) = numbers(b"", rest)
        trigger = self.desk.trigger(number)
        text, rows, totals = trigger.text(), trigger.rows(), trigger.totals()
        head, table, told = re.fullmatch("(.*?)\n\n(.*?)\n?\nTotals:\n(.*)", text, re.DOTALL).groups()
        modes = modifiers(trigger)
        same("rows", [row_text(trigger.names, modes, row) for row in rows], table.split("\n") if table else [])
        same("totals", list(totals), [int(number) for number in re.findall(r"[0-9]+", told)])
        same("counted hits", (sum(row.hitcount for row in rows), len(rows)), totals[:2])
        same("the trigger's text", f"# trigger info: {trigger.canonical} [active]", head.split("\n")[2])
        by_id = [(one.id, one.event) for one in self.desk.triggers() if one == trigger]
        same("the trigger by id", by_id, [(number, trigger.event)])
        if pandas:
            same("a table in pandas", trigger.to_pandas().shape, (len(rows), len(trigger.names)))
        return encoded(text)

    def totals(self, rest):
        (number,) = numbers(b"", rest)
        return b"hits %d entries %d dropped %d" % self.desk.trigger(number).totals()

    def lat(self, rest):
        (number,) = numbers(b"", rest)
        trigger = self.desk.trigger(number)
        latencies = trigger.latencies()
        stamps = {(event.cpu, event.line): event.stamp for event in self.desk.events()} if len(latencies) else {}
        lines = [latency_text(latency, stamps) for latency in latencies]
        totals = trigger.totals()
        same("counted and dropped latencies", totals.hits + totals.dropped, len(lines))
        if pandas:
            same("latencies in pandas", len(trigger.latencies_to_pandas()), len(lines))
        return encoded("\n".join([*lines, f"Latencies: {len(lines)}"]))

    def list(self, rest):
        (cpu,) = numbers(b"", rest)
        text, events = self.desk.list(cpu), self.desk.events(cpu)
        same("events", "".join(map(event_text, events)), text)
        same("events one by one", [self.desk.event(event.cpu, event.line) for event in events], list(events))
        if len(events):
            same("a part of a lane", list(self.desk.events(cpu, events[-1].line)), [events[-1]])
        if pandas:
            same("events in pandas", len(self.desk.to_pandas(cpu)), len(events))
        return encoded(text)


# ---- texts


def encoded(text):
    return text.encode("utf-8", "surrogateescape")


def split(text):
    """The first word, and the rest after the gap."""
    word, _, rest = text.partition(b" ")
    return word, rest.lstrip(b" ")


def numbers(front, *texts):
    """The numbers of a command, each after the same front."""
    for text in texts:
        if not re.fullmatch(front + b"[0-9]{1,10}", text) or int(text[len(front) :]) >= 2**32:
            raise ScriptRefused(16)
    return [int(text[len(front) :]) for text in texts]


def same(what, one, other):
    if one != other:
        raise Differs(f"{what}: {one!r} and {other!r}")


def modifiers(trigger):
    """Return the modifier of each key of a trigger, or an empty text."""
    return [item.partition(".")[2] for item in trigger.canonical.split(":")[1].partition("=")[2].split(",")]


def key_of(trigger, row):
    return tuple(row[: trigger.names.index("hitcount")])


def row_text(names, modes, row):
    """A row as the text of the table has it (docs/REFERENCE.md, Keys and Table text)."""
    parts = [f"{name}: {part_text(mode, value)}" for name, mode, value in zip(names, modes, row)]
    titles = [name[: -len("_sum")] if name.endswith("_sum") and name[: -len("_sum")] in names else name for name in names]
    sums = zip(titles[len(modes) + 1 :], row[len(modes) + 1 :])
    counted = f"hitcount: {row.hitcount:10}" + "".join(f"  {name}: {value:10}" for name, value in sums)
    return "{ " + ", ".join(parts) + " } " + counted


def part_text(mode, value):
    """A part of a key. The type of a number says of which kind it is."""
    if isinstance(value, str):
        return value + " " * (50 - len(encoded(value)))
    same("a key's type", type(value), {"log2": histdesk.Log2, "buckets": histdesk.Bucket}.get(mode.partition("=")[0], int))
    if mode == "log2":
        return f"~ 2^{int(value):<2}"
    if mode.startswith("buckets"):
        return f"~ {value.low}-{value.high}"
    return f"{value & MASK:x}" if mode == "hex" else f"{value & MASK:10}"


def latency_text(latency, stamps):
    """A latency's line. Its stamps are those of the events at its places."""
    saved, read = (latency.saved_cpu, latency.saved_line), (latency.read_cpu, latency.read_line)
    same("stamps", (stamps[saved], stamps[read]), (latency.saved_stamp, latency.read_stamp))
    same("a latency", latency.read_stamp - latency.saved_stamp, latency.micros)
    return f"{saved[0]}:{saved[1]} -> {read[0]}:{read[1]}: {latency.micros} us"


def event_text(event):
    """An event's line (docs/REFERENCE.md, List lines)."""
    stamp = f"{event.stamp // 10**6}.{event.stamp % 10**6:06}"
    front = f"{event.cpu}:{event.line} {event.task}-{event.common_pid} [{event.cpu:03}] {stamp}:"
    if event.name == "other":
        return front + "\n"
    if event.name == "sched_switch":
        prev = f"prev_comm={event.prev_comm} prev_pid={event.prev_pid} prev_prio={event.prev_prio}"
        after = f"next_comm={event.comm} next_pid={event.pid} next_prio={event.prio}"
        return f"{front} {event.name}: {prev} prev_state={event.prev_state} ==> {after}\n"
    sign = "-" if event.target_cpu < 0 else ""
    target = f"{sign}{abs(event.target_cpu):03}"
    return f"{front} {event.name}: comm={event.comm} pid={event.pid} prio={event.prio} target_cpu={target}\n"


# ---- runs


def run(script, traces):
    """What a script prints, and its status."""
    with open(script, "rb") as file:
        lines = file.read().split(b"\n")
    desk, printed, status = Script(traces), [], 0
    for line in lines if lines[-1] else lines[:-1]:
        text, refused = desk.output(line)
        printed.append(text)
        status = 1 if refused else status
    return b"".join(printed), status


def traces_of(folder):
    """A row's traces, by number."""
    return [str(folder / f"trace{number}") for number in range(1, 1 + len([*folder.glob("trace?")]))]


def row_folders():
    """The folders of rows, by name."""
    folders = [Path(HERE).parent / "rows", *filter(None, [os.environ.get("HISTDESK_ROWS")])]
    return sorted(row for folder in folders for row in Path(folder).iterdir())


def pytest_generate_tests(metafunc):
    """Let the test of a row be one for each row."""
    if "row" in metafunc.fixturenames:
        metafunc.parametrize("row", row_folders(), ids=lambda row: row.name)


def test_row(row):
    given, status = run(str(row / "script"), traces_of(row))
    assert given == (row / "expected").read_bytes()
    assert status == int((row / "status").read_text())


def main():
    words = sys.argv[1:]
    if words[:1] != ["--script"]:
        return python_runner.main()
    printed, status = run(words[1], words[2:])
    sys.stdout.buffer.write(printed)
    return status


if __name__ == "__main__":
    sys.exit(main())
