"""Hostile texts, for hostile.py: trace lines, filters, triggers and commands, good ones and what is near them.

A character stands for each byte, as in model.py. Each call takes a `random.Random` first, which decides everything.
"""

import re

from model_line import EVENTS, MADE, TEXTS, fields_of

# What is put into texts: most often a byte that means something there.
SIGNS = " \t\r&|!()=<>~'\"$.,:;-+[]*?\\#@_0123456789abefhimnopstxzAZ"
ODD = [chr(byte) for byte in [0, 1, 9, 11, 12, 13, 26, 27, 28, 31, 127, 133, 160, *range(128, 256)]]
ENDS = [*map(str, (2**31 - 2, 2**31 - 1, 2**31, -(2**31), -(2**31) - 1, 2**32 - 1, 2**32, -1, 0)), "-0"]
WIDE = [*map(str, (2**63 - 1, 2**63, -(2**63), -(2**63) - 1, 2**64))]
NUMBERS = [*ENDS, *WIDE, "1", "42", "120", "007", "00", "0x2a", "0X1", "0x", "-0x1", "1a", "-", "", "--1", "+1"]
COMMS = ["w", "sh", "cyclictest", "my app 2", "kworker/0:1", "", "a pid=7 b", "x ==> next_comm=y", "-1 [000] "]
COMMS += ["[a]*", "\xe9\xff", "q\"'"]
EDGES = {
    "space": ["", " ", "          ", "\t"],
    "task": ["x" * 31, "x" * 32, "", "-", "my-app 2", "a-1 [000] ", "#x", "CPU:1", "\xff" * 31, "x-1", " x ", "(7)"],
    "pid": [*ENDS, "", "1x", "0" * 40 + "1"],
    "gap": ["", "  ", "\t"],
    "group": ["(      9) ", "(-------) ", "() ", "(9)", "(9) (9) ", "( -9-) ", "(9 ) ", "(a) ", "[7] "],
    "cpu": ["8191", "8192", "8190", "0", "0008191", "65536", "4294967296", "", "-1", "1a", "] ["],
    "letters": ["d" * 16 + " ", "d" * 17 + " ", "", "d.:h ", "1.000000 ", "\xff ", "d..2.  "],
    "seconds": ["4294967295", "4294967296", "4294967294", "0000000001", "00000000001", "", "-1", "1a", "9999999999"],
    "micros": ["000000", "00000", "0000000", "999999", "00000a", "", "-00001", "000000:"],
    "end": [":", "", "::", ": ", " :", ":x"],
    "label": [*EVENTS, "sched_waking_", "sched_wakeup_ne", "Sched_waking", "sched_switch ", MADE, "update_curr", ""],
    "text": [*COMMS, "x" * 31, "x" * 32, "x" * 30, "\xff" * 31],
    "number": NUMBERS,
    "count": [*ENDS, "000", "8191", "", "1a", "0" * 40],
    "state": ["S", "R+", "x" * 31, "x" * 32, "", "R S", "==>", "\t"],
    "success": [" success=1", " success=2147483648", " success=", " success=1 success=1", "  success=1", " success=-1"],
}
PLAIN = {
    "space": [" ", ""],
    "task": ["sim", "bash", "my-app 2"],
    "pid": ["1", "7", "1994"],
    "gap": [" "],
    "group": [""],
    "cpu": ["000", "001", "3"],
    "letters": ["d.h.. ", "", ".... "],
    "seconds": ["1", "6012"],
    "micros": ["000100", "000001", "999999"],
    "end": [":"],
    "label": EVENTS,
    "text": COMMS[:4],
    "number": ["1", "5", "42", "120", "-1"],
    "count": ["000", "001"],
    "state": ["S", "R+", "D"],
    "success": [""],
}
SKIPPED = ["# tracer: nop", "##### CPU 2 buffer started ####", "CPU:1 [LOST 7 EVENTS]", "CPU:12 [LOST EVENTS]"]
SKIPPED += ["", " ", "\t ", "hello"]
PATTERNS = ["*", "cyc*", "*app*", "?h", "[a-z]*", "[!a]*", "[a-]", "*[0-9]", "w", "", "[a-c-e]?", "*a*b*", "[!!]*"]
OPERATORS = ["==", "!=", "<", "<=", ">", ">=", "&", "~"]
# What triggers are attached to.
ATTACHED = [*EVENTS, MADE]
# Commands, each good somewhere.
ANSWERS = ["hist", "totals", "lat"]


def near(draw, text):
    """The text with one character put in, replaced or taken out."""
    at = draw.randrange(len(text) + 1)
    kind = draw.randrange(3)
    put = "" if kind == 2 else draw.choice(SIGNS if draw.random() < 0.8 else ODD)
    return text[:at] + put + text[at + min(kind, 1) :]


def doubled(draw, text, piece):
    """The text with one of its pieces, which are runs of the form `piece`, twice, or put in at another one."""
    found = list(re.finditer(piece, text))
    if not found:
        return text + text
    one, other = draw.choice(found), draw.choice(found)
    return text[: other.start()] + one[0] + text[other.start() :]


def torn(draw, one, other):
    """The beginning of one text, and the end of another one."""
    return one[: draw.randrange(len(one) + 1)] + other[draw.randrange(len(other) + 1) :]


def stretched(draw, text, length):
    """The text with a run of one character in it, which makes it so long."""
    at = draw.randrange(len(text) + 1)
    return text[:at] + draw.choice(" 0x-(\t\xff1[") * (length - len(text)) + text[at:]


# ---- trace lines


def line(draw, odd=()):
    """A trace line; the parts of these names are odd."""
    part = lambda name: draw.choice((EDGES if name in odd else PLAIN)[name])
    head = f"{part('space')}{part('task')}-{part('pid')}{part('gap')}{part('group')}[{part('cpu')}]{part('gap')}"
    head += f"{part('letters')}{part('seconds')}.{part('micros')}{part('end')}{part('gap')}"
    label = part("label")
    if label == "sched_switch":
        said = f"prev_comm={part('text')} prev_pid={part('number')} prev_prio={part('number')}"
        said += f" prev_state={part('state')} ==> next_comm={part('text')}"
        said += f" next_pid={part('number')} next_prio={part('number')}"
    else:
        said = f"comm={part('text')} pid={part('number')} prio={part('number')}"
        said += f"{part('success')} target_cpu={part('count')}"
    return f"{head}{label}:{part('gap')}{said}"


def odd_line(draw, most):
    """A line with up to so many odd parts, of which some may be good."""
    return line(draw, draw.sample(list(EDGES), draw.randrange(1, most + 1)))


def skipped_line(draw):
    """A line that is skipped, or is near one."""
    text = draw.choice(SKIPPED)
    kind = draw.randrange(10)
    if kind < 2:
        return doubled(draw, text, r"\d+ ?|[A-Z]+|[#:]|\[|\]| ")
    return near(draw, text) if kind < 7 else text


def odd_bytes(draw, text):
    for _ in range(draw.randrange(1, 4)):
        at = draw.randrange(len(text) + 1)
        text = text[:at] + draw.choice(ODD) + text[at:]
    return text


def hostile_line(draw):
    """A line without byte 10."""
    kind = draw.randrange(10)
    if kind == 0:
        return doubled(draw, line(draw), r" ?[a-z_]+=|\[\d+\] |-\d+ |==>|sched_\w+:|\d+\.\d+:")
    if kind == 1:
        return torn(draw, line(draw), line(draw))
    if kind == 2:
        return odd_bytes(draw, line(draw))
    if kind == 3:
        return stretched(draw, line(draw), draw.choice([4095, 4096, 4097]))
    if kind == 4:
        return skipped_line(draw)
    return near(draw, line(draw)) if kind < 6 else odd_line(draw, 4)


def cut_lines(draw, count):
    """One good line, cut at each byte, or at so many of them: its beginnings or its ends."""
    whole = line(draw)
    places = draw.sample(range(len(whole) + 1), min(count, len(whole) + 1))
    is_front = draw.random() < 0.5
    return [whole[:at] if is_front else whole[at:] for at in sorted(places)]


def hostile_lines(draw, count):
    lines = cut_lines(draw, count // 2)
    return lines + [hostile_line(draw) for _ in range(count - len(lines))]


# ---- filters


def predicate(draw, event):
    field = draw.choice(fields_of(event))
    is_text = field in TEXTS
    gap = draw.choice(["", " ", " ", "\t"])
    operator = draw.choice(["==", "!=", "~", "~"] if is_text else OPERATORS[:-1])
    if is_text:
        quote = draw.choice(['"', '"', "'"])
        text = draw.choice(PATTERNS if operator == "~" else EDGES["text"])
        value = quote + text.replace(quote, "") + quote
    else:
        value = draw.choice(["0", "1", "5", "42", "-1", "120", "0x2a", *WIDE[::2], *ENDS[:3]])
    return f"{field}{gap}{operator}{gap}{value}"


def condition(draw, event, depth=3):
    """A filter for the event; not every one is good, since values may be out of range."""
    kind = draw.randrange(7) if depth else 0
    if kind < 3:
        return predicate(draw, event)
    if kind == 3:
        return "!" + draw.choice(["", " "]) + condition(draw, event, depth - 1)
    if kind == 4:
        return "(" + condition(draw, event, depth - 1) + ")"
    joint = draw.choice([" && ", "&&", " || ", "||"])
    return joint.join(condition(draw, event, depth - 1) for _ in range(draw.randrange(2, 4)))


def deep_condition(draw, event):
    """A filter of about as many levels as there may be; or as many levels side by side, which count as no more than one."""
    level, count = draw.choice(["(", "!", "!(", "( "]), draw.choice([31, 32, 33])
    if draw.random() < 0.2:
        return "||".join([level + predicate(draw, event) + ")" * level.count("(")] * count)
    text = level * (count // len(level.strip()))
    return text + predicate(draw, event) + ")" * (text.count("(") + draw.choice([0, 0, 0, -1, 1]))


def strange_value(draw, event):
    """A field and an operator with a value that may not stand there."""
    patterns = ["w", "[", "[a", "[]", "[!]", "[b-a]", "!a", "a\\b", "a!", "]"]
    values = [*NUMBERS, "0x7fffffffffffffff", "'w'", '"', "'w", *(f'"{pattern}"' for pattern in patterns)]
    return f"{draw.choice(fields_of(event))} {draw.choice(OPERATORS)} {draw.choice(values)}"


def strange_pattern(draw, event):
    """A pattern that is good or near it."""
    pattern = near(draw, near(draw, draw.choice(PATTERNS))).replace('"', "")
    field = draw.choice([field for field in fields_of(event) if field in TEXTS] or ["lat"])
    return f'{field} ~ "{pattern}"'


def hostile_filter(draw, event):
    kind = draw.randrange(11)
    if kind == 0:
        return deep_condition(draw, event)
    if kind == 1:
        return strange_value(draw, event)
    if kind == 2:
        return torn(draw, condition(draw, event), condition(draw, event))
    if kind == 3:
        # Fields of another event.
        return condition(draw, draw.choice(ATTACHED))
    if kind == 4:
        return doubled(draw, condition(draw, event), r"[a-z_]+|&&|\|\||[()!]|[<>=~&]+|-?\d+")
    if kind == 5:
        return strange_pattern(draw, event)
    return near(draw, condition(draw, event)) if kind < 10 else condition(draw, event)


# ---- triggers


def modified(draw, field):
    """A key: a numeric field may have a modifier."""
    if field in TEXTS:
        return field
    return field + draw.choice(["", "", ".hex", ".log2", ".buckets=8", ".buckets=4294967295"])


def making(draw, event, own="v", saver="sched_waking"):
    """A part that makes events of latencies. It may hand on a text or another event's field, or name another saver."""
    fields = fields_of(event if draw.random() < 0.95 else draw.choice(ATTACHED))
    handed = [draw.choice([field for field in fields if field not in TEXTS or draw.random() < 0.1]) for _ in range(2)]
    saver = draw.choice([*[saver] * 8, *EVENTS])
    return f"onmatch(sched.{saver}).wakeup_latency(${own},{','.join(handed)})"


def maker(draw, event):
    """A trigger that makes events of the latencies that it has with one of the savers of hostile.py, t and s."""
    number = draw.choice([field for field in fields_of(event) if field not in TEXTS])
    text = draw.choice([field for field in fields_of(event) if field in TEXTS] or ["common_pid"])
    forms = [("t", number, "sched_waking"), ("s", f"{text},{number}.log2", "sched_switch")]
    name, keys, saver = draw.choice(forms)
    parts = [f"keys={keys}", f"v=common_timestamp.usecs-${name}", making(draw, event, saver=saver)]
    parts += draw.choice([[], ["size=256"], ["vals=$v"], ["sort=hitcount.descending"]])
    draw.shuffle(parts)
    return "hist:" + ":".join(parts) + draw.choice(["", "", " if " + condition(draw, event, 1)])


def trigger(draw, event):
    """A trigger's text for the event; there may be an item too many, a size out of range, or a variable that isn't there."""
    fields = fields_of(event)
    keys = [modified(draw, field) for field in draw.sample(fields, draw.choice([1, 1, 1, 1, 2, 2, 3, 3, 4]))]
    is_made = event == MADE and draw.random() < 0.8
    numbers = [field for field in fields if field not in TEXTS or draw.random() < 0.02]
    values = draw.sample([*numbers, "hitcount", *["$v"][is_made:]], draw.choice([0, 0, 0, 1, 2, 3, 4]))
    names = [*values, *(item.split(".")[0] for item in keys), "hitcount"]
    sorted_by = draw.sample(names, min(len(names), draw.choice([1, 1, 2, 2, 3])))
    sorts = [name + draw.choice(["", "", ".ascending", ".descending"]) for name in sorted_by]
    parts = [draw.choice(["keys=", "key="]) + ",".join(keys)]
    if values:
        parts.append(draw.choice(["values=", "vals=", "val="]) + ",".join(values))
    if draw.random() < 0.4:
        parts.append("sort=" + ",".join(sorts))
    if draw.random() < 0.4:
        parts.append("size=" + draw.choice(["64", "65", "128", "128", "129", "2048", "131072", "131073", "0128"]))
    if "$v" in values or not is_made and draw.random() < 0.3:
        parts.append("v=common_timestamp.usecs" + draw.choice(["", "-$t", "-$s"]))
    if draw.random() < (0.4 if "-$" in parts[-1] else 0.03):
        parts.append(making(draw, event))
    draw.shuffle(parts)
    tail = draw.choice(["", "", " if ", "\tif\t "])
    return "hist:" + ":".join(parts) + (tail and tail + condition(draw, event, 1))


def strange_trigger(draw, event):
    """A good text with a part or an item that is left out, comes twice, or is none."""
    parts = ["pause", "cont", "clear", "nohitcount", "name=x", "clock=global", "onmax($v).save(comm)", "onchange($v)"]
    parts += ["onmatch(x.y).z()", "", "keys", "keys=pid", "vals=", "sort=", "size=", "size=-1", "1=2", "v =pid"]
    parts += ["w=common_timestamp.usecs", "pid=common_timestamp.usecs", "hitcount=common_timestamp.usecs"]
    parts += ["v=common_timestamp.usecs-$v", "v=common_timestamp", "v=pid", "onmatch", "onmatch(", "onmatch=pid"]
    parts += ["onmatch(sched.sched_waking)", "onmatch(sched.sched_waking).wakeup_latency($v,pid)"]
    parts += ["onmatch(sched.wakeup_latency).wakeup_latency($v,common_pid,common_cpu)", making(draw, event)]
    parts += ["onmatch(sched.sched_waking).wakeup_latency($v,common_pid,lat)", making(draw, event, "t")]
    parts += ["onmatch(sched.sched_waking).trace(wakeup_latency,$v,common_pid,common_cpu)"]
    items = [".execname", ".sym-offset", ".percent", ".graph", ".stacktrace", ".usecs", ".", ".hex.hex"]
    items += [".buckets=0", ".buckets=4294967296", ",stacktrace", ",common_stacktrace", ",common_timestamp", ",$v"]
    items += [",common_timestamp.usecs", ",", ",nope", ",hitcount", ",pid", ",comm"]
    text = trigger(draw, event)
    at = draw.choice([place.start() for place in re.finditer("[:,. ]|$", text)])
    return text[:at] + draw.choice([":" + draw.choice(parts), draw.choice(items)]) + text[at:]


def hostile_trigger(draw, event):
    kind = draw.randrange(14)
    if kind == 0:
        return torn(draw, trigger(draw, event), trigger(draw, event))
    if kind == 1:
        return doubled(draw, trigger(draw, event), r"[a-z_]+=?|[:,.=$()]|\d+")
    if kind == 2:
        return trigger(draw, draw.choice(ATTACHED))
    if kind < 5:
        return strange_trigger(draw, event)
    if kind < 7:
        return maker(draw, event) if kind == 5 else near(draw, maker(draw, event))
    return near(draw, trigger(draw, event)) if kind < 11 else trigger(draw, event)


# ---- commands


def command(draw):
    """A good command, or one that is good on another desk."""
    event, cpu, number = draw.choice(ATTACHED), draw.choice([0, 0, 1, 3]), draw.choice([1, 1, 2, 3])
    kind = draw.randrange(12)
    if kind < 2:
        return f"load @{draw.randrange(1, 4)}"
    if kind < 4:
        side = "next_" if event == "sched_switch" else ""
        variable = draw.choice([":t=common_timestamp.usecs", ":vals=$v:v=common_timestamp.usecs-$t", ""])
        if event == MADE and draw.random() < 0.9:
            return f"attach {event} hist:keys={modified(draw, draw.choice(['lat', 'pid', 'prio']))}:size=128"
        if "-" in variable and draw.random() < 0.5:
            variable += f":{making(draw, event)}"
        return f"attach {event} hist:keys={side}pid{variable}:size=128"
    if kind < 6:
        return "insert " + line(draw)
    if kind == 6:
        return f"strike {cpu}:{draw.randrange(1, 6)}"
    if kind == 7:
        return f"filter {number} " + draw.choice(["none", "if common_pid < 9", f"if {condition(draw, event, 1)}"])
    if kind == 8:
        return draw.choice([f"remove {number}", f"unload {cpu}"])
    if kind == 9:
        return draw.choice(["# a comment", "", "   ", f"list {cpu}"])
    return f"{draw.choice(ANSWERS)} {number}"


def hostile_command(draw):
    kind = draw.randrange(20)
    if kind == 0:
        return stretched(draw, command(draw), draw.choice([8191, 8192, 8193, 9000]))
    if kind == 1:
        return doubled(draw, command(draw), r"\w+ ?|[@:]|\d+")
    if kind == 2:
        number = draw.choice(["0", "4294967295", "4294967296", "00000000001", "0000000001", "65536", "8192"])
        return re.sub(r"\d+", number, command(draw), count=1)
    if kind == 3:
        return command(draw) + draw.choice(["\r", "\t", " ", "\0", "\xa0", " 1", " none", " x"])
    return near(draw, command(draw)) if kind < 12 else command(draw)
