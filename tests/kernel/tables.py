"""The tables of kernel.sh: those that the kernel's `hist` files and the desk's output show, read into one form, and those
of a replay in the order of the trace's lines.

Keys, counts and sums have no padding; numbers are numbers, a `.hex` component too; `clock=`, the filter and modifiers in
`sort=` are left out of the head. The sum of a saver's variable, which the kernel names after what is saved, has the
variable's name. The order of rows is kept only as the list of what they are sorted by, since rows that are equal in that
may stand in any order.
"""

import re
import sys

sys.dont_write_bytecode = True

from model_line import TEXTS, read_line
from model_trigger import MASK, Trigger, component_text, field_of

HEAD = "# trigger info: "
PLAIN, HEX, LOG2, BUCKETS, TEXT = r" *\d+", "[0-9a-f]+", r"~ 2\^\d+ *", r"~ \d+-\d+", ".*?"


class Table:
    """The table of one trigger: its head, its rows in order, and its totals."""

    def __init__(self, head, rows, totals):
        self.head, self.rows, self.totals = head, rows, totals

    def only(self, names):
        """Return the table with only the hit count and these sums."""
        rows = [(key, {name: sums[name] for name in ["hitcount", *names]}) for key, sums in self.rows]
        return Table(self.head, rows, self.totals)

    def renamed(self, title, name):
        """Return the table with another title for one sum. In the head it is the value of a saver."""
        head = self.head.replace(f",{title}.usecs", f",${name}")
        rows = [(key, {name if old == title else old: total for old, total in sums.items()}) for key, sums in self.rows]
        return Table(head, rows, self.totals)

    def order(self, sort):
        """Return what the rows are sorted by, row by row."""
        return [tuple(by(key, sums, name) for name, _ in sort) for key, sums in self.rows]


def by(key, sums, name):
    return dict(key)[name] if name in dict(key) else sums[name.lstrip("$")]


def number_or_text(field, mode, text):
    text = text.strip(" ")
    if field in TEXTS or mode == "log2" or mode.startswith("buckets"):
        return text
    return int(text, 16 if mode == "hex" else 10)


def row_form(keys):
    """Return the form of a row with these keys; names may hold anything, so the other parts say where they end."""
    forms = {"": PLAIN, "hex": HEX, "log2": LOG2}
    parts = [f"{field}: ({TEXT if field in TEXTS else forms.get(mode, BUCKETS)})" for field, mode in keys]
    return re.compile(r"\{ " + ", ".join(parts) + r" *\} hitcount: +(\d+)((?:  \w+: +\d+)*)")


def read_head(line):
    """Return the parts of the head on which both sides must agree."""
    head = line[len(HEAD) :].rsplit(" [active]", 1)[0].partition(" if ")[0]
    head = re.sub(r":onmatch\(.*|:clock=\w+", "", head)
    first, sorted_by, rest = re.fullmatch(r"(.*:sort=)([^:]*)(.*)", head).groups()
    return first + re.sub(r"\.(hex|log2|buckets=\d+)", "", sorted_by) + rest


def read_table(lines, keys):
    """Return a table, from the lines of one trigger in a `hist` file, or in the desk's output."""
    head, rows, form, totals = "", [], row_form(keys), []
    for line in lines:
        if line.startswith(HEAD):
            head = read_head(line)
        elif line.startswith("{ "):
            found = form.fullmatch(line)
            if not found:
                raise ValueError(f"a row of no known form: {line}")
            *key, count, sums = found.groups()
            key = tuple((field, number_or_text(field, mode, text)) for (field, mode), text in zip(keys, key))
            sums = {name: int(total) for name, total in re.findall(r"  (\w+): +(\d+)", sums)}
            rows.append((key, {"hitcount": int(count)} | sums))
        elif line.startswith("    "):
            totals.append(int(line.rpartition(" ")[2]))
    return Table(head, rows, tuple(totals))


def with_ends(case):
    """Return the case with the buckets of negative numbers in the kernel's tables as the desk has them: the last one ends at
    the greatest number, and doesn't begin again at 0."""

    def ended(found):
        return f"~ {found[1]}-{MASK}" if int(found[2]) < int(found[1]) else found[0]

    parts = {name: case[name] for name in ("block", "summed") if name in case}
    return case | {name: [re.sub(r"~ (\d+)-(\d+)", ended, line) for line in lines] for name, lines in parts.items()}


def blocks(text):
    """Return the parts of a `hist` file, one for each trigger, in the order in which they were attached."""
    return [part.split("\n") for part in text.split("# event histogram\n")[1:]]


def read_trace(lines):
    """Return the events of a trace, in the order of its lines, each with its place in its CPU's lane."""
    events, counts = [], {}
    for line in lines:
        event = read_line(line)
        if event:
            counts[event["cpu"]] = counts.get(event["cpu"], 0) + 1
            events.append(event | {"line": counts[event["cpu"]], "text": line})
    return events


def replayed(cases, events):
    """Return the tables and latencies of a group, with the events in the order of the trace's lines: the stamps that the text
    shows are rounded, and the kernel has put the lines in order by stamps that are not."""
    triggers = [Trigger(case["event"], case["text"]) for case in cases]
    told = [{"rows": {}, "dropped": 0, "latencies": []} for _ in triggers]
    savers, variables = {trigger.saves: trigger for trigger in triggers if trigger.saves}, {}
    for event in events:
        for trigger, one in zip(triggers, told):
            if trigger.is_hit(event):
                act(trigger, event, one, savers, variables)
    return [finished(trigger, one) for trigger, one in zip(triggers, told)]


def act(trigger, event, told, savers, variables):
    key, own = trigger.key_of(event), event["stamp"]
    if trigger.reads:
        saved = variables.pop((trigger.reads, key), None)
        if saved is None:
            return
        own -= saved
        if key in told["rows"] or len(told["rows"]) < trigger.size:
            told["latencies"].append((event["cpu"], own))
    if key not in told["rows"] and len(told["rows"]) >= trigger.size:
        told["dropped"] += 1
        return
    row = told["rows"].setdefault(key, {"hitcount": 0} | {value.lstrip("$"): 0 for value in trigger.values})
    row["hitcount"] += 1
    for value in trigger.values:
        row[value.lstrip("$")] = (row[value.lstrip("$")] + (own if value.startswith("$") else field_of(event, value))) & MASK
    if trigger.saves:
        variables[trigger.saves, key] = event["stamp"]


def key_of(trigger, key):
    """Return a model's key in the form that it has in a table's row."""
    texts = zip(trigger.keys, (value for _, value in key))
    return tuple((field, number_or_text(field, mode, component_text(mode, value))) for (field, mode), value in texts)


def finished(trigger, told):
    rows = [(key_of(trigger, key), sums) for key, sums in told["rows"].items()]
    hits = sum(sums["hitcount"] for _, sums in rows)
    return Table("", rows, (hits, len(rows), told["dropped"])), told["latencies"]
