"""Random texts of filters and triggers, for random_script.py: every form that docs/REFERENCE.md has of them, and
now and then one that is spoilt, so that faults and their places are compared too."""

WAKE = ["pid", "prio", "target_cpu"], ["comm"]
SWITCH = ["prev_pid", "prev_prio", "next_pid", "next_prio"], ["prev_comm", "prev_state", "next_comm"]
MADE = ["lat", "pid", "prio"], []
COMMON = ["common_pid", "common_cpu"]
EVENTS = ["sched_waking", "sched_wakeup", "sched_wakeup_new", "sched_switch"]
# What triggers are attached to: the events of traces, and the one that triggers make.
ATTACHED = [*EVENTS, "wakeup_latency"]
# Names of tasks, with each kind of quote and with characters that mean something else in a pattern.
COMMS = ["cyclictest", "my app 2", "kworker/0:1", "sh", "it's me", 'say "hi"', "[x]-y"]
STATES = ["S", "R+", "D"]
# Bytes that a spoilt text has in place of its own.
SPOILS = "!()&|<>=~[]*?\\'\"$,.:-_ \t0x9azZ"


def numeric(event):
    return {"sched_switch": SWITCH, "wakeup_latency": MADE}.get(event, WAKE)[0] + COMMON


def textual(event):
    return {"sched_switch": SWITCH, "wakeup_latency": MADE}.get(event, WAKE)[1]


def spoilt(draw, text):
    """The text with one byte more, less or other."""
    at = draw.randrange(len(text) + 1)
    return text[:at] + draw.choice(["", draw.choice(SPOILS)]) + text[at + draw.randrange(2) :]


# ---- filters


def gap(draw):
    return draw.choice([" "] * 6 + ["", "", "  ", "\t"])


def number(draw):
    """A number, mostly one that fields hold, in one of its forms."""
    value = draw.choice([draw.randrange(-3, 160), draw.randrange(160), draw.randrange(9)])
    if draw.randrange(10) == 0:
        value = draw.choice([1 << draw.randrange(63), 2**63 - 1])
    negative = [str(-value), str(-(2**63))] if draw.randrange(8) == 0 else []
    hexadecimal = [f"0x{value:x}", f"0x{value:X}", f"0x00{value:x}"] if value >= 0 else []
    rare = ["010", "0x", "-0x1", "9223372036854775808", "12a", "-"] if draw.randrange(40) == 0 else []
    return draw.choice([str(value), str(value), *hexadecimal, *negative, *rare])


def quoted(draw, text):
    """The text in quotes of a kind that it doesn't have, if there is one."""
    return draw.choice([quote + text + quote for quote in "'\"" if quote not in text] or ['"' + text + '"'])


def byte_class(draw, byte):
    """A class that has the byte, or one that has the other bytes."""
    low, high = chr(max(33, ord(byte) - draw.randrange(3))), chr(ord(byte) + draw.randrange(3))
    members = draw.choice([byte, f"{byte}z", f"{low}-{high}", f"0-9{low}-{high}", f"{byte}-", f"a-c-{byte}"])
    return "[" + draw.choice(["", "", "!"]) + members + "]"


def pattern(draw, text):
    """A pattern, mostly one that matches the text."""
    items = []
    for byte in text:
        kind = draw.randrange(12)
        if kind < 2:
            items.append("?")
        elif kind < 4:
            items.append(byte_class(draw, byte))
        elif kind < 6:
            items.append(draw.choice(["*", "*" + byte]))
        else:
            items.append(byte)
    if draw.randrange(3) == 0:
        items[draw.randrange(len(items)) :] = ["*"]
    if draw.randrange(5) == 0:
        items.insert(0, "*")
    return "".join(items) if draw.randrange(30) else draw.choice(["", "[a", "[]", "[!]", "[b-a]", "a\\*", "!a", "[!!]*", "[*]"])


def predicate(draw, event):
    if draw.randrange(3) or not textual(event):
        field, operator = draw.choice(numeric(event)), draw.choice(["==", "!=", "<", "<=", ">", ">=", "&"])
        value = number(draw)
    else:
        field, operator = draw.choice(textual(event)), draw.choice(["==", "!=", "~", "~", "~"])
        text = draw.choice(STATES if field == "prev_state" else COMMS)
        value = quoted(draw, pattern(draw, text) if operator == "~" else text)
    return field + gap(draw) + operator + gap(draw) + value


def operand(draw, event, deep):
    kind = draw.randrange(10)
    if deep and kind < 2:
        return "!" + draw.choice(["", " "]) + operand(draw, event, deep - 1)
    if deep and kind < 5:
        return "(" + gap(draw) + joined(draw, event, deep - 1) + gap(draw) + ")"
    return predicate(draw, event)


def joined(draw, event, deep):
    """Some operands, joined by `&&` and `||` as they come."""
    text = operand(draw, event, deep)
    for _ in range(draw.choice([0, 0, 1, 1, 2, 3])):
        text += gap(draw) + draw.choice(["&&", "||"]) + gap(draw) + operand(draw, event, deep)
    return text


def condition(draw, event):
    """A filter on an event."""
    text = joined(draw, event, draw.randrange(4))
    if draw.randrange(60) == 0:
        open_ones = draw.choice([31, 32, 33])
        text = draw.choice(["(" * open_ones + text + ")" * open_ones, "!" * open_ones + text])
    return spoilt(draw, text) if draw.randrange(12) == 0 else text


# ---- triggers


def key(draw, event):
    if draw.randrange(4) == 0 and textual(event):
        return draw.choice(textual(event))
    field, size = draw.choice(numeric(event)), draw.choice(["3", "8", "010", "4294967295"])
    return field + draw.choice(["", "", ".hex", ".log2", f".buckets={size}"])


def direction(draw):
    return draw.choice(["", "", ".ascending", ".descending", ".descending"])


def making(draw, event, own):
    """A part that makes events of latencies, mostly a good one in a reader that has this variable."""
    saver, handed = draw.choice(["sched_waking"] * 4 + EVENTS), [draw.choice(numeric(event)) for _ in range(2)]
    if draw.randrange(10) == 0:
        handed[draw.randrange(2)] = draw.choice([*textual(event), "lat", "pid", "next_pid"])
    text = f"onmatch(sched.{saver}).wakeup_latency(${own},{','.join(handed)})"
    return spoilt(draw, text) if draw.randrange(10) == 0 else text


def trigger(draw, event):
    """The text of a trigger on an event, with any of the forms: items of each list as they come, parts in any order."""
    keys = {item.partition(".")[0]: item for item in (key(draw, event) for _ in range(draw.choice([1, 1, 2, 3])))}
    parts = [draw.choice(["keys=", "keys=", "key="]) + ",".join(keys.values())]
    # The event that triggers make has no variables.
    empty = [""] * (40 if event == "wakeup_latency" else 3)
    variable = draw.choice([*empty, "c=common_timestamp.usecs", "lat=common_timestamp.usecs-$" + draw.choice("abc")])
    own = ["$" + variable.partition("=")[0]] if variable else []
    values = draw.sample(numeric(event) + ["hitcount"] + own, draw.randrange(4))
    if values:
        parts.append(draw.choice(["values=", "vals=", "val="]) + ",".join(values))
    names = list(dict.fromkeys([*keys, *values, "hitcount"]))
    sort = draw.sample(names, min(draw.randrange(3), len(names)))
    if sort:
        parts.append("sort=" + ",".join(name + direction(draw) for name in sort))
    if draw.randrange(2):
        parts.append("size=" + draw.choice(["65", "128", "0200", "256"]))
    draw.shuffle(parts)
    if variable:
        parts.insert(draw.randrange(len(parts) + 1), variable)
    for _ in range(draw.choice([0, 1, 1] if "$" in variable else [0] * 15 + [1])):
        parts.insert(draw.randrange(len(parts) + 1), making(draw, event, draw.choice(["lat"] * 9 + ["a"])))
        if draw.randrange(20) == 0:
            parts.append(making(draw, event, "lat"))
    text = "hist:" + ":".join(parts)
    if draw.randrange(3):
        text += draw.choice([" ", "  ", "\t"]) + "if" + draw.choice([" ", "\t "]) + condition(draw, event)
    return spoilt(draw, text) if draw.randrange(12) == 0 else text
