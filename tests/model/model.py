#!/usr/bin/env python3
"""A plain model of the desk, for comparing: it holds events in dictionaries and replays at each answer.

    model.py SCRIPT [TRACE]... > OUTPUT

It was written from the rules of docs/REFERENCE.md, and shares nothing with the program. Its other parts are
model_line.py, model_filter.py and model_trigger.py.
"""

import re
import sys

# Nothing is written beside the sources.
sys.dont_write_bytecode = True
# A number may have thousands of digits, which newer versions of Python have to be told to accept.
if hasattr(sys, "set_int_max_str_digits"):
    sys.set_int_max_str_digits(0)

from model_filter import FilterFault, read_filter
from model_line import EVENTS, MADE, LineFault, line_text, read_line
from model_trigger import MASK, Trigger, TriggerFault, field_of

MOST_EVENTS = 1048576
ANSWERS = ["hist", "totals", "lat", "list"]


class Refused(Exception):
    """A command is refused: its number and its detail."""


class Desk:
    def __init__(self):
        self.lanes, self.triggers, self.next_id = {}, {}, 1
        # What replaying told, if no edit came after.
        self.told = None

    # ---- edits

    def load(self, lines):
        events = []
        for number, line in enumerate(lines, 1):
            event = read_or_refuse(line, number)
            if event:
                events.append(event)
        for event in events:
            if event["cpu"] in self.lanes:
                raise Refused(f"4: cpu {event['cpu']}")
        self.needs_room(len(events))
        for event in events:
            self.put(event)
        return f"loaded {len(events)}"

    def insert(self, line):
        event = read_or_refuse(line, 1)
        if not event:
            raise Refused("6")
        self.needs_room(1)
        return f"inserted {self.put(event)}"

    def needs_room(self, count):
        if sum(len(lane["events"]) for lane in self.lanes.values()) + count > MOST_EVENTS:
            raise Refused("7")

    def put(self, event):
        lane = self.lanes.setdefault(event["cpu"], {"events": {}, "next": 1})
        lane["events"][lane["next"]] = event
        lane["next"] += 1
        return f"{event['cpu']}:{lane['next'] - 1}"

    def strike(self, cpu, line):
        if self.lane(cpu)["events"].pop(line, None) is None:
            raise Refused("6")
        return f"struck {cpu}:{line}"

    def unload(self, cpu):
        lane = self.lane(cpu)
        del self.lanes[cpu]
        return f"unloaded {len(lane['events'])}"

    def lane(self, cpu):
        if cpu not in self.lanes:
            raise Refused(f"5: cpu {cpu}")
        return self.lanes[cpu]

    def trigger(self, number):
        if number not in self.triggers:
            raise Refused("10")
        return self.triggers[number]

    def saver_of(self, name):
        return next((i for i, t in sorted(self.triggers.items()) if t.saves == name), None)

    def attach(self, event, text):
        try:
            trigger = Trigger(event, text)
        except TriggerFault as fault:
            raise Refused(f"8: {fault}")
        if len(self.triggers) == 64:
            raise Refused("15")
        if trigger.saves and self.saver_of(trigger.saves) is not None:
            raise Refused(f"12: trigger {self.saver_of(trigger.saves)}")
        if trigger.reads:
            saver = self.saver_of(trigger.reads)
            if saver is None or trigger.matched not in (None, self.triggers[saver].event):
                raise Refused("13")
            if self.triggers[saver].kinds() != trigger.kinds():
                raise Refused("14")
        self.triggers[self.next_id] = trigger
        self.next_id += 1
        return f"attached {self.next_id - 1}"

    def refilter(self, number, text):
        """With no text the trigger has no filter any more."""
        trigger = self.trigger(number)
        try:
            trigger.filter = None if text is None else read_filter(text, trigger.fields)
        except FilterFault as fault:
            raise Refused(f"9: {fault.text()}")
        return f"refiltered {number}"

    def remove(self, number):
        trigger = self.trigger(number)
        readers = [i for i, t in sorted(self.triggers.items()) if trigger.saves and t.reads == trigger.saves]
        if readers:
            raise Refused(f"11: trigger {readers[0]}")
        del self.triggers[number]
        return f"removed {number}"

    # ---- answers

    def replay(self):
        if self.told is None:
            self.told = self.replayed()
        return self.told

    def replayed(self):
        merged = sorted((e["stamp"], cpu, line) for cpu, lane in self.lanes.items() for line, e in lane["events"].items())
        state = {i: {"table": {}, "dropped": 0, "pairs": []} for i in self.triggers}
        variables = {}
        for pos in merged:
            self.passes_by(pos, self.lanes[pos[1]]["events"][pos[2]], state, variables)
        return state

    def passes_by(self, pos, event, state, variables):
        """An event goes past the triggers on its name, in order of id."""
        for number, trigger in sorted(self.triggers.items()):
            if trigger.is_hit(event):
                self.act(number, trigger, pos, event, state, variables)

    def act(self, number, trigger, pos, event, state, variables):
        key, told = trigger.key_of(event), state[number]
        own = pos[0]
        if trigger.reads:
            saved = variables.pop((self.saver_of(trigger.reads), key), None)
            if saved is None:
                return
            told["pairs"].append((saved, pos))
            own = pos[0] - saved[0]
            if trigger.making:
                self.passes_by(pos, trigger.made_of(event, own), state, variables)
        if key not in told["table"] and len(told["table"]) >= trigger.size:
            told["dropped"] += 1
            return
        row = told["table"].setdefault(key, [0] + [0] * len(trigger.values))
        row[0] += 1
        for i, value in enumerate(trigger.values):
            row[i + 1] = (row[i + 1] + (own if value.startswith("$") else field_of(event, value))) & MASK
        if trigger.saves:
            variables[(number, key)] = pos

    def counts(self, told):
        return sum(row[0] for row in told["table"].values()), len(told["table"]), told["dropped"]

    def rows(self, trigger, table):
        rows = sorted(table.items())
        for name, down in reversed(trigger.sort):
            fields = [field for field, _ in trigger.keys]
            if name == "hitcount":
                by = lambda row: row[1][0]
            elif name in fields:
                by = lambda row, at=fields.index(name): row[0][at]
            else:
                by = lambda row, at=trigger.values.index(name) + 1: row[1][at]
            # A stable sort keeps the order of equal rows, in reverse too.
            rows.sort(key=by, reverse=down)
        return rows

    def hist(self, number):
        trigger = self.trigger(number)
        told = self.replay()[number]
        lines = ["# event histogram", "#", f"# trigger info: {trigger.text()} [active]", "#", ""]
        for key, row in self.rows(trigger, told["table"]):
            sums = "".join(f"  {value.lstrip('$')}: {total:10}" for value, total in zip(trigger.values, row[1:]))
            lines.append(f"{trigger.key_text(key)} hitcount: {row[0]:10}{sums}")
        hits, entries, dropped = self.counts(told)
        return "\n".join(lines + ["", "Totals:", f"    Hits: {hits}", f"    Entries: {entries}", f"    Dropped: {dropped}"])

    def totals(self, number):
        self.trigger(number)
        return "hits {} entries {} dropped {}".format(*self.counts(self.replay()[number]))

    def latencies(self, number):
        if not self.trigger(number).reads:
            raise Refused("17")
        pairs = self.replay()[number]["pairs"]
        lines = [f"{a[1]}:{a[2]} -> {b[1]}:{b[2]}: {b[0] - a[0]} us" for a, b in pairs]
        return "\n".join(lines + [f"Latencies: {len(pairs)}"])

    def list(self, cpu):
        lane = self.lane(cpu)["events"]
        return "\n".join(f"{cpu}:{line} {line_text(event)}" for line, event in sorted(lane.items()))

    # ---- commands

    def perform(self, line, traces):
        """The output of a script's line, without its last end of line."""
        if len(line) > 8192:
            raise Refused("16")
        if not line.strip(" ") or line.startswith("#"):
            return ""
        word, rest = split(line.strip(" "))
        if word not in ANSWERS:
            self.told = None
        if line == "insert" or line.startswith("insert "):
            return self.insert(line[7:])
        if word == "attach":
            event, text = split(rest)
            if event not in (*EVENTS, MADE):
                raise Refused("16")
            return self.attach(event, text)
        if word == "load":
            number = numbers("@", rest)[0]
            if not 1 <= number <= len(traces):
                raise Refused("2")
            return self.load(traces[number - 1])
        if word == "strike":
            cpu, _, at = rest.partition(":")
            return self.strike(*numbers("", cpu, at))
        if word == "filter":
            return self.perform_filter(rest)
        do = {"unload": self.unload, "remove": self.remove, "list": self.list}
        do |= {"hist": self.hist, "totals": self.totals, "lat": self.latencies}
        if word not in do:
            raise Refused("16")
        return do[word](*numbers("", rest))

    def perform_filter(self, text):
        number, rest = split(text)
        how, text = split(rest)
        (number,) = numbers("", number)
        if how == "none" and not text:
            return self.refilter(number, None)
        if how != "if":
            raise Refused("16")
        return self.refilter(number, text)


def split(text):
    """The first word, and the rest after the gap."""
    word, _, rest = text.partition(" ")
    return word, rest.lstrip(" ")


def numbers(front, *texts):
    """The numbers of a command, each after the same front."""
    for text in texts:
        if not re.fullmatch(front + "[0-9]{1,10}", text) or int(text[len(front) :]) >= 2**32:
            raise Refused("16")
    return [int(text[len(front) :]) for text in texts]


def read_or_refuse(line, number):
    try:
        return read_line(line)
    except LineFault as fault:
        raise Refused(f"3: line {number} fault {fault}")


def lines_of(path):
    """A file's lines, a character for each byte. A last piece that is not empty is a line too."""
    with open(path, encoding="latin-1", newline="") as source:
        lines = source.read().split("\n")
    return lines if lines[-1] else lines[:-1]


def main():
    script, *paths = sys.argv[1:]
    traces = [lines_of(path) for path in paths]
    desk = Desk()
    for line in lines_of(script):
        try:
            text = desk.perform(line, traces)
        except Refused as refused:
            text = f"refused {refused}"
        if text:
            sys.stdout.buffer.write(text.encode("latin-1") + b"\n")


if __name__ == "__main__":
    main()
