#!/usr/bin/env python3
"""Gives texts whose truth is known to from-perf, from-trace-cmd and record's kernel_text, and what they print to the program.

    turned.py TOOLS [SEED]

TOOLS is the folder of the scripts; the program is the one that HISTDESK names. Another SEED gives other texts. What the
scripts print has to be loaded, line for line, and what isn't printed has to be counted. The texts hold over 10,000 torn lines,
names made to mislead, several buffers, and foreign bytes. The truth is the events that the texts were written from, and
tests/model/model_line.py, which reads lines as the documents say. The last line says how many of how many things hold."""

import io
import os
import random
import re
import subprocess
import sys
import tempfile
import types
from typing import Any, Callable, Dict, List, NamedTuple, Tuple

# Nothing is written beside the sources.
sys.dont_write_bytecode = True

sys.path.insert(0, os.path.join(os.path.dirname(os.path.realpath(__file__)), "..", "model"))
from checks import check, finish
from model_line import LineFault, read_line

TOOLS = os.path.realpath(sys.argv[1])
PYTHON = os.path.join(os.path.dirname(TOOLS), "python")
sys.path.insert(0, PYTHON)
PROGRAM = os.environ["HISTDESK"]
ODD = 1500
# What misleads in a name, in a line or between two lines.
BITS = ["-12 [003] ", "-1 [000] 1.0: ", "\n", "\n\n", " ", "#", " ==> next_comm=", "[", "] ", ":", " pid=7", " prio=1"]
BITS += [" next_pid=5", " prev_state=R", "=", "-", "7", " 12 [0", "CPU:1 [LOST ", "one: ", "a", "xyz", "(  -9) ", "\t", "\r"]
BITS += ["5 ", "\x1b[m", "\xe9\xff"]
PLAIN = ["bash", "my app 2", "kworker/u8:1", "a-b", "<idle>", "x: y", "swapper"]
EVENTS = ["sched_waking", "sched_wakeup", "sched_wakeup_new", "sched_switch", "irq_handler_entry"]


class Happened(NamedTuple):
    """An event from which a text is written."""

    task: str
    pid: int
    cpu: int
    nanos: int
    name: str
    names: Tuple[str, ...]
    numbers: Tuple[int, ...]

    @property
    def fields(self) -> str:
        """The kernel's text of its fields."""
        if self.name == "sched_switch":
            text = "prev_comm={} prev_pid={} prev_prio={} prev_state=S ==> next_comm={} next_pid={} next_prio={}"
            return text.format(self.names[0], *self.numbers[:2], self.names[1], *self.numbers[2:])
        if self.name.startswith("sched_"):
            return "comm={} pid={} prio={} target_cpu={:03}".format(*self.names, *self.numbers[:3])
        return "irq=1 name=x"

    @property
    def micros(self) -> int:
        """The stamp as the kernel rounds it."""
        return (self.nanos + 500) // 1000


def some_events(draw: random.Random, count: int, name: Callable[[], str]) -> List[Happened]:
    """Return events in the order of time, with names that `name` makes."""
    nanos, events = 3_000_000_000 * draw.randint(1, 99), []
    for _ in range(count):
        nanos += draw.choice([1, 499, 500, 501, 999, 999_999, 10_000_500])
        kind = draw.choice(EVENTS)
        numbers = [draw.choice([0, 1, 7, 120, 4194304]) for _ in range(4)]
        task, pid = name(), draw.randint(0, 99999)
        if kind == "sched_switch":
            # A switch leaves the task of its line.
            numbers[0] = pid
        events.append(Happened(task, pid, draw.randint(0, 3), nanos, kind, (name(), name()), tuple(numbers)))
    return [event._replace(names=event.names[: 1 + (event.name == "sched_switch")]) for event in events]


def nanos(event: Happened) -> str:
    return "{}.{:09}".format(*divmod(event.nanos, 10**9))


def perf_text(event: Happened) -> str:
    """Return what `perf script` prints for an event."""
    name = ("sched:" if event.name.startswith("sched_") else "irq:") + event.name
    return f"{event.task:>16} {event.pid:5} [{event.cpu:03}] {nanos(event):>15}: {name:>24}: {event.fields}"


def with_process(event: Happened) -> str:
    """Return what `perf script -F +pid` prints for an event."""
    front, stamp, rest = perf_text(event).partition(f" [{event.cpu:03}] {nanos(event):>15}: ")
    return f"{event.task:>16} {event.pid // 2:5}/{event.pid:<5}{stamp}{rest}"


def report_text(event: Happened) -> str:
    """Return what `trace-cmd report` prints for an event."""
    return f"{event.task:>16}-{event.pid:<5} [{event.cpu:03}] {nanos(event):>16}: {event.name + ':':<21} {event.fields}"


def plugins_text(event: Happened) -> str:
    """Return what `trace-cmd report` prints for an event by its plugins, which -N leaves out."""
    if event.name in ("sched_waking", "irq_handler_entry"):
        return report_text(event)
    tasks = [f"{name}:{pid} [{prio}]" for name, pid, prio in zip(event.names, event.numbers[::2], event.numbers[1::2])]
    fields = " S ==> ".join(tasks) if event.name == "sched_switch" else f"{tasks[0]} CPU:{event.numbers[2]:03}"
    return report_text(event)[: -len(event.fields)] + fields


def kernel_text(event: Happened) -> str:
    """Return what the kernel prints for an event."""
    stamp = "{:>5}.{:06}".format(*divmod(event.micros, 10**6))
    return f"{event.task:>16}-{event.pid:<7} [{event.cpu:03}] d..2. {stamp}: {event.name}: {event.fields}"


FORMS: Dict[str, Tuple[Callable[[Happened], str], List[str]]] = {
    "from-perf": (perf_text, [os.path.join(TOOLS, "from-perf")]),
    "from-trace-cmd": (report_text, [os.path.join(TOOLS, "from-trace-cmd")]),
    "record": (kernel_text, ["-m", "histdesk.cli.kernel_text", "record"]),
    "from-trace-cmd, of plugins": (plugins_text, [os.path.join(TOOLS, "from-trace-cmd")]),
    "from-perf, with processes": (with_process, [os.path.join(TOOLS, "from-perf")]),
}


def converted(words: List[str], text: bytes) -> Tuple[int, bytes, List[str]]:
    """Return the status of a script that is given a text in a file, and what it writes on both streams."""
    with tempfile.NamedTemporaryFile() as file:
        file.write(text)
        file.flush()
        environment = {**os.environ, "PYTHONPATH": PYTHON}
        ran = subprocess.run(
            [sys.executable, *words, file.name], capture_output=True, timeout=100, check=False, env=environment
        )
    return ran.returncode, ran.stdout, ran.stderr.decode("ascii").splitlines()


def loaded(trace: bytes) -> str:
    """Return what the program prints as it loads a trace."""
    with tempfile.NamedTemporaryFile() as file:
        file.write(trace)
        file.flush()
        ran = subprocess.run([PROGRAM, "-", file.name], input=b"load @1\n", stdout=subprocess.PIPE, timeout=100, check=False)
    return ran.stdout.decode().strip()


def lines_of(trace: bytes) -> List[str]:
    """Return the lines of a trace, except blank ones, comments and those that report losses."""
    lines = trace.decode("latin-1").split("\n")
    return [line for line in lines if line.strip(" ") and not re.match(r"#|CPU:[0-9]+ \[LOST ([0-9]+ )?EVENTS\]\Z", line)]


def left_out(said: List[str]) -> int:
    """Return how many lines were left out, as standard error says."""
    shown = sum(bool(re.fullmatch("[a-z-]+: line [0-9]+: .*", line)) for line in said)
    more = [int(found[1]) for found in map(re.compile(".*: ([0-9]+) more lines can't be converted.*").fullmatch, said) if found]
    return shown + sum(more)


def meaning(line: str) -> Any:
    """Return what a line means, as the documents say."""
    try:
        return read_line(line)
    except LineFault as fault:
        return f"fault {fault}"


def is_name(read: str, true: str, is_task: bool = False) -> bool:
    """Return whether a name is the true one, except for masked bytes; blanks before a task's name are lost in every text."""
    true = true.lstrip(" ") if is_task else true
    return len(read) == len(true) and all(one in (other, "?") for one, other in zip(read, true))


def is_true(read: Any, event: Happened) -> bool:
    """Return whether a line was read as the event that it was written from."""
    if isinstance(read, str) or not is_name(read["task"], event.task, True):
        return False
    if (read["line_pid"], read["cpu"], read["stamp"]) != (event.pid, event.cpu, event.micros):
        return False
    if event.name not in EVENTS[:4]:
        return read["name"] == "other"
    texts = [value for field, value in read["said"].items() if field.endswith("comm")]
    numbers = [value for field, value in read["said"].items() if isinstance(value, int)]
    wanted = event.numbers if event.name == "sched_switch" else event.numbers[:3]
    return read["name"] == event.name and numbers == list(wanted) and all(map(is_name, texts, event.names))


# ---- torn lines


def torn(draw: random.Random, line: str, other: str) -> str:
    """Return a line that lacks some bytes, or has too many, its own or those of another line."""
    at, kind = draw.randint(0, len(line)), draw.randint(0, 5)
    if kind == 0:
        return line[:at]
    if kind == 1:
        return line[at:]
    if kind == 2:
        return line[:at] + line[at + draw.randint(1, 30) :]
    if kind == 3:
        return line[:at] + other[draw.randint(0, len(other)) :]
    if kind == 4:
        return line[:at] + draw.choice(BITS).replace("\n", "") + line[at:]
    return line[: line.find(draw.choice(["comm=", "pid=", "prio=", "==>", "next_comm=", ": ", "["])) + draw.randint(0, 9)]


def check_torn(name: str, seed: int, count: int) -> int:
    """Check torn lines, each with a whole one after it, so that none is a piece of another; return how many weren't printed."""
    draw, (text_of, words) = random.Random(seed), FORMS[name]
    events = some_events(draw, count + 1, lambda: draw.choice(PLAIN))
    whole = [text_of(event) for event in events]
    lines = [line for at in range(count) for line in (torn(draw, whole[at], whole[at + 1]), whole[at])]
    status, trace, said = converted(words, "\n".join(lines).encode("latin-1") + b"\n")
    printed, blank = lines_of(trace), sum(not line.strip() or line.startswith("#") for line in lines)
    answer = loaded(trace)
    if answer.startswith("refused"):
        print(repr(trace.decode("latin-1").split("\n")[int(answer.split()[3]) - 1]))
    check(answer == f"loaded {len(printed)}", f"{name}: {len(printed)} lines are printed, and the program says {answer}")
    gone = left_out(said)
    told = f"{gone} are left out, {blank} blank: {said[-1:]}"
    check(len(lines) == len(printed) + gone + blank, f"{name}: of {len(lines)} lines {told}")
    check(status == 1 and len(said) < 10, f"{name}: status {status}, {len(said)} lines on standard error")
    read = iter([meaning(line) for line in printed])
    kept = sum(any(is_true(one, event) for one in read) for event in events[:count])
    check_sure(lines)
    check(kept == count, f"{name}: {kept} of {count} whole lines are turned as they should be")
    return gone


def check_sure(lines: List[str]) -> None:
    """Check that lines that the converters take for sure ones can be read as the documents say, and that those that they skip
    are skipped."""
    from histdesk.convert.line_patterns import SKIPPED, SURE

    sure = [line for line in lines if SURE.fullmatch(line.encode("latin-1"))]
    wrong = [line for line in sure if not isinstance(meaning(line), dict)]
    wrong += [line for line in lines if SKIPPED.fullmatch(line.encode("latin-1")) and meaning(line) is not None]
    check(not wrong, f"{len(wrong)} lines are no sure ones, such as {wrong[:1]}")


# ---- names


def odd_name(draw: random.Random) -> str:
    """Return a name of up to 15 bytes that is made to mislead."""
    if draw.random() < 0.3:
        return draw.choice(["bash", "a b", "kworker/u8:1"])
    return "".join(draw.choices(BITS, k=draw.randint(0, 4)))[:15]


def check_names(name: str, seed: int) -> None:
    """Check that each whole line with odd names is converted, and means what it should."""
    draw, (text_of, words) = random.Random(seed), FORMS[name]
    events = some_events(draw, ODD, lambda: odd_name(draw))
    status, trace, said = converted(words, "".join(text_of(event) + "\n" for event in events).encode("latin-1"))
    printed, answer = lines_of(trace), loaded(trace)
    check(answer == f"loaded {ODD}", f"{name}: odd names: {len(printed)} lines, and the program says {answer}: {said}")
    wrong = [event for line, event in zip(printed, events) if not is_true(meaning(line), event)]
    check(not wrong, f"{name}: {len(wrong)} lines with odd names are turned wrongly, such as {wrong[:1]}")
    check(status == 0 and len(said) == 1 and " would mislead the desk" in said[0], f"{name}: status {status}, {said}")


class Drip(io.RawIOBase):
    """A file that gives few bytes at a time."""

    def __init__(self, content: bytes, draw: random.Random) -> None:
        super().__init__()
        self.content = content
        self.draw = draw

    def read(self, _: int = -1) -> bytes:
        count = self.draw.choice([1, 2, 30, 200, 3000])
        given, self.content = self.content[:count], self.content[count:]
        return given


def check_pieces(seed: int) -> None:
    """Check that a text that comes in small pieces is converted like one that comes at once."""
    from histdesk.convert.conversion import convert_text
    from histdesk.convert.perf import PerfFormat
    from histdesk.convert.report import Report

    draw = random.Random(seed)
    text = "".join(perf_text(event) + "\n" for event in some_events(draw, 300, lambda: odd_name(draw))).encode("latin-1")
    traces = []
    for source in (io.BytesIO(text), Drip(text, draw)):
        sink, sys.stdout = sys.stdout, io.TextIOWrapper(io.BytesIO())
        sys.stdout, sink = sink, sys.stdout
        real, sys.stdout = sys.stdout, sink
        try:
            report = Report("test", "perf script", "text")
            report.say = lambda text: None
            convert_text(PerfFormat(), report, source.read(1), source)
            traces.append(sink.buffer.getvalue())
        finally:
            sys.stdout = real
    check(traces[0] == traces[1] and traces[0].count(b"\n") == 300, "a text in small pieces is turned otherwise")


def check_gone() -> None:
    """Check that an event of a task that is gone gets the task to which its CPU has switched, however long before that was,
    unless the CPU has lost events since."""

    def line(task: str, thread: int, cpu: int, at: int, event: str) -> str:
        return f"{task:>16} {thread:>7} [{cpu:03}] {1000 + at // 1000000:>5}.{at % 1000000:06}000: {event}"

    def switch(cpu: int, at: int) -> str:
        fields = f"prev_comm=a prev_pid=7 prev_prio=120 prev_state=S ==> next_comm=w{cpu} [000]  next_pid=4{cpu} next_prio=120"
        return line("a", 7, cpu, at, f"sched:sched_switch: {fields}")

    waking = "sched:sched_waking: comm=b pid=8 prio=120 target_cpu=000"
    lost = "perf     0 [002]  1000.000003: PERF_RECORD_LOST lost 5"
    # Several times as much as is converted at once.
    others = [line("other", 5, 1, 10 + at, waking) for at in range(20000)]
    gone = [line(":-1", -1, cpu, 30000 + cpu, waking) for cpu in (2, 3)]
    text = "\n".join([switch(2, 1), switch(3, 2), lost, *others, *gone, ""]).encode()
    ran = subprocess.run(
        [os.path.join(TOOLS, "from-perf")], input=text, stdout=subprocess.PIPE, stderr=subprocess.PIPE, check=False
    )
    last = lines_of(ran.stdout)[-1]
    check(last.startswith("w3 [000] -43 [003] 1000.030003: sched_waking: comm=b"), f"a task that is gone is {last}")
    check(b"line 20004: perf knows no task of this event" in ran.stderr, f"of a CPU with losses: {ran.stderr!r}")


def check_kept(seed: int) -> None:
    """Check that record's script looks once at lines that differ only in digits, and finds what its pattern finds in each."""
    from histdesk.convert.kernel_text import KernelFormat

    draw = random.Random(seed)
    events = some_events(draw, 2000, lambda: draw.choice(PLAIN) if draw.random() < 0.99 else odd_name(draw))
    # Numbers near their limits, where digits decide.
    limits = ["[7999]", "[8000]", "[99999]", " 3999999999.000001:", " 4000000000.000001:", "pid=999999999", "pid=1000000000"]
    lines = [kernel_text(event) for event in events]
    for at in range(0, len(lines), 7):
        pattern = draw.choice([r"\[[0-9]+\]", r" [0-9]+\.[0-9]+:", r"pid=[0-9]+"])
        lines[at] = re.sub(pattern, draw.choice(limits), lines[at], count=1)
    lines += [torn(draw, line, draw.choice(lines)) for line in lines] + ["", "# a comment", "CPU:1 [LOST 7 EVENTS]"]
    form, wrong, kept = KernelFormat(), [], 0
    for _ in range(2000):
        # Most pieces of a text have only plain lines.
        some = draw.sample(lines[: 2000 if draw.random() < 0.8 else None], draw.randint(0, 3))
        text = "".join(line + "\n" for line in some).encode("latin-1")
        found, count = form.pattern.findall(text), form.unchanged(text)
        kept += count > 0
        is_plain = bool(found) and not any(odd for _, odd in found) and all(line for line, _ in found)
        if count != (len(found) if is_plain and not is_limit(text) else 0) or form.find(text) != found:
            wrong.append(text)
    check(not wrong and kept > 300, f"record: {kept} pieces are kept, {len(wrong)} are found otherwise, such as {wrong[:1]}")


def is_limit(text: bytes) -> bool:
    """Return whether a CPU or seconds have so many digits that these decide: such a piece is not kept at once."""
    return bool(re.search(rb"\[[0-9]{4}\]| [0-9]{10}\.", text))


def check_ahead(seed: int) -> None:
    """Check that a file is read ahead in pieces that are its bytes, and that an error is raised if it can't be read."""
    from histdesk.convert.conversion import SIZE, Ahead, Source

    for size in (0, 1, SIZE, SIZE + 1, 9 * SIZE + 7):
        content = random.Random(seed).randbytes(size)
        with tempfile.TemporaryFile(buffering=0) as file:
            file.write(content)
            file.seek(0)
            source = Source(file)
            parts = [source.read(SIZE)]
            ahead = Ahead(source)
            while parts[-1]:
                parts.append(ahead.read(SIZE))
        check(not source.is_pipe and b"".join(parts) == content, f"a file of {size} bytes is read otherwise")
    folder = os.open(tempfile.gettempdir(), os.O_RDONLY)
    try:
        said = Ahead(Source(types.SimpleNamespace(fileno=lambda: folder))).read(SIZE)
    except OSError as error:
        said = error.strerror
    check(said == "Is a directory", f"a folder is read ahead: {said}")


# ---- flags


def latency_text(event: Happened, flags: str) -> str:
    """Return what `trace-cmd report -l` prints for an event."""
    return f"{event.task[:8]:>8}-{event.pid:<5} {event.cpu:3}{flags} {nanos(event):>16}: {event.name + ':':<21} {event.fields}"


def check_flags(seed: int) -> None:
    """Check that each event gets its own flags from the latency layout, if it is there, however the texts come."""
    from histdesk.convert.latency import MOST, Flagged

    draw = random.Random(seed)
    events = some_events(draw, 2000, lambda: odd_name(draw))
    flags = [draw.choice(["d..2.", ".....", "dNh3.", "X.s..", "d.H5a1"]) for _ in events]
    there = [draw.random() < 0.9 for _ in events]
    lines = [(latency_text(event, letters) + "\n").encode("latin-1") for event, letters in zip(events, flags)]
    latency = b"cpus=4\n" + b"".join(line for line, is_there in zip(lines, there) if is_there)
    text = b"cpus=4\nCPU:1 [7 EVENTS DROPPED]\n" + "".join(report_text(event) + "\n" for event in events).encode("latin-1")
    wanted = text
    for event, letters, is_there in zip(events, flags, there):
        front = f"-{event.pid:<5} [{event.cpu:03}] "
        old = f"{front}{nanos(event):>16}: {event.name}:".encode("latin-1")
        new = f"{front}{letters} {nanos(event):>16}: {event.name}:".encode("latin-1")
        wanted = wanted.replace(old, new, 1) if is_there else wanted
    for sources in ((io.BytesIO(text), io.BytesIO(latency)), (Drip(text, draw), Drip(latency, draw))):
        flagged = Flagged(*sources, 5000)
        found = b"".join(iter(lambda: flagged.read(1), b""))
        check(found == wanted, f"flags: {sum(map(bytes.__ne__, found.splitlines(), wanted.splitlines()))} lines are others")
    # So many events more that it isn't looked for the right one, and none at all.
    for latency in (lines[0] * (MOST + 1) + lines[1], b"", b"no line"):
        flagged = Flagged(io.BytesIO(text), io.BytesIO(latency), 5000)
        found = b"".join(iter(lambda: flagged.read(1), b""))
        other = report_text(events[1]).encode("latin-1")
        check(len(found) - len(text) in (0, len(flags[0]) + 1) and other in found, "flags that are not there are put in")


# ---- buffers


def check_buffers(seed: int, names: List[str]) -> None:
    """Check that each of several buffers is taken by its name, as if it were alone. The top one has no name here. No name of a
    task has a buffer's columns after a line break: such a line is left out."""
    draw, width = random.Random(seed), max(map(len, names)) + 2
    words = FORMS["from-trace-cmd"][1]
    mixed, alone = "cpus=4\n", {name: "cpus=4\n" for name in names}
    for event in some_events(draw, 600, lambda: odd_name(draw).replace("\none: ", "one: ")):
        name = draw.choice(names)
        front = f"{name + ': ' if name else '':>{width}}"
        if draw.random() < 0.05:
            lost = f"CPU:{event.cpu} [{draw.choice(['', '7 '])}EVENTS DROPPED]\n"
            mixed, front = mixed + front + lost, ""
            alone[name] += lost
        mixed += front + report_text(event) + "\n"
        alone[name] += report_text(event) + "\n"
    for name in names:
        wanted = converted(words, alone[name].encode("latin-1"))
        taken = converted([*words, "--buffer", name or "/"], mixed.encode("latin-1"))
        check(taken[:2] == wanted[:2], f"buffer {name or '/'} of {names}: status {taken[0]}, {taken[2][:2]}")
    status, trace, said = converted(words, mixed.encode("latin-1"))
    if len(names) > 1:
        is_refused = len(said) == 1 and all(f" {name or '/'} (" in said[0] for name in names)
        check((status, trace) == (1, b"") and is_refused, f"buffers {names} are mixed: status {status}, {said[:2]}")
    else:
        check((status, trace) == wanted[:2], f"the only buffer {names} isn't taken: status {status}, {said[:2]}")


# ---- other bytes


def check_foreign(name: str, seed: int) -> None:
    """Check that a script ends at once, with one line and status 1, if it is given something else than such a text."""
    draw, words = random.Random(seed), FORMS[name][1]
    line = bytes(range(1, 256)).replace(b"\n", b"")
    texts = {
        "bytes": draw.getrandbits(8 << 20).to_bytes(1 << 20, "big"),
        "bytes but no zero": bytes(draw.choices(range(1, 256), k=1 << 20)),
        "one long line": line * 10000,
        "many lines": (line + b"\n") * 50000,
        "blanks before a line": b" " * 14 + b"\n" + b" " * 9 + b"\nx\n",
        "shell": b"#!/bin/sh\necho\n" * 300,
    }
    for what, text in texts.items():
        status, trace, said = converted(words, text)
        check(status == 1 and len(said) == 1, f"{name}: {what}: status {status}, {said[:2]}")
        check(not lines_of(trace), f"{name}: {what}: it prints {trace[:50]!r}")


first = 100 * int(sys.argv[2]) if len(sys.argv) > 2 else 0
gone = sum(check_torn(name, seed, 1000 if "," in name else 4000) for seed, name in enumerate(FORMS, first))
check(gone > 5000, f"only {gone} lines were left out")
for seed, name in enumerate(FORMS, first):
    check_names(name, seed)
    if "," not in name:
        check_foreign(name, seed)
check_pieces(first)
check_gone()
check_kept(first)
check_ahead(first)
check_flags(first)
for seed, names in enumerate([["", "one"], ["one", "two", ""], ["a", "longer name: "], ["one"]], first):
    check_buffers(seed, names)
finish()
