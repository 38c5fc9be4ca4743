#!/usr/bin/env python3
"""Compares what from-perf and from-trace-cmd convert the quick way with what they convert the slow way.

    quickly.py TOOLS

TOOLS is the folder of the scripts. It takes a copy of them, and compiles for the copy what build/build compiles. As root, it
records this machine by perf and trace-cmd: with events that are lost or overwritten, packed, with call chains, a single task,
other events, odd names, tasks that are renamed and end, and numbers of a container. Each recording gives the same bytes, words
and status both ways.
Arguments that tell the filter something wrong are noticed; what is written first is not written twice. What this machine lacks
is not tried, and a line says so. The last line says how many of how many things hold."""

import contextlib
import io
import os
import random
import re
import shutil
import signal
import subprocess
import sys
import tempfile
from typing import Dict, Iterator, List, NamedTuple, Tuple

# Nothing is written beside the sources.
sys.dont_write_bytecode = True

TOOLS = os.path.realpath(sys.argv[1])
ROOT = os.path.dirname(TOOLS)
sys.path.insert(0, os.path.join(ROOT, "python"))

from checks import check, finish
from histdesk import _schema
from histdesk.convert import blocks, perf_data, perf_formats
from histdesk.convert.report import ConversionError

SCHED = [f"-esched:{name}" for name in _schema.TRACED_EVENTS]
ROUNDS, LIMIT = 300, 100


# ---- formats

STATES = '{ 0x0001, "S" }, { 0x0002, "D" }, { 0x0080, "I" }'
OLD_STATES = '{ 1, "S"} , { 2, "D" }, { 64, "x" }'


def field(words: str, at: int, size: int) -> str:
    return f"\tfield:{words};\toffset:{at};\tsize:{size};\tsigned:1;\n"


COMMON = field("unsigned short common_type", 0, 2) + field("int common_pid", 4, 4)


def switch_format(state_size: int = 8, mask: str = "((0x1 | 0x2) << 1)", states: str = STATES) -> str:
    """Return the format of a switch, as a kernel has it."""
    at = 32 + state_size
    fields = field("char prev_comm[16]", 8, 16) + field("pid_t prev_pid", 24, 4) + field("int prev_prio", 28, 4)
    fields += field("long prev_state", 32, state_size) + field("char next_comm[16]", at, 16)
    fields += field("pid_t next_pid", at + 16, 4) + field("int next_prio", at + 20, 4)
    return (
        f"name: sched_switch\nID: 300\nformat:\n{COMMON}\n{fields}\n"
        'print fmt: "prev_comm=%s prev_pid=%d prev_prio=%d prev_state=%s%s ==> next_comm=%s next_pid=%d next_prio=%d", '
        f"REC->prev_comm, REC->prev_pid, REC->prev_prio, REC->prev_state & {mask} ? __print_flags(REC->prev_state & {mask}, "
        f'"|", {states}) : "R", REC->prev_state & 0x100 ? "+" : "", REC->next_comm, REC->next_pid, REC->next_prio\n'
    )


def waking_format(has_success: bool) -> str:
    """Return the format of a waking; that of older kernels tells of success."""
    fields = field("char comm[16]", 8, 16) + field("pid_t pid", 24, 4) + field("int prio", 28, 4) + field("int success", 32, 4)
    text = perf_formats.WAKING_TEXTS[has_success]
    return f"name: sched_waking\nID: 301\nformat:\n{COMMON}\n{fields}{field('int target_cpu', 36, 4)}\nprint fmt: {text}\n"


def other_format(name: str, printed: str) -> str:
    """Return the format of another event, with fields of each kind that is simple and a few that aren't."""
    fields = [("pid_t pid", 8, 4, 1), ("u64 long_one", 16, 8, 0), ("u32 state", 24, 4, 0), ("char comm[16]", 28, 16, 0)]
    fields += [("__data_loc char[] path", 44, 4, 0), ("short small", 48, 2, 1), ("__data_loc u8[] raw", 52, 4, 0)]
    lines = [field(words, at, size).replace("signed:1", f"signed:{signed}") for words, at, size, signed in fields]
    return f"name: {name}\nID: 302\nformat:\n{COMMON}\n{''.join(lines)}\nprint fmt: {printed}\n"


# How the kernel prints other events, and what the filter is told of that; nothing of those that aren't simple.
OTHER_TEXTS = [
    ('"pid=%d [ns]", REC->pid', "pid=%d8.4; [ns]"),
    ('"%Lu %llx %lu", (unsigned long long)REC->long_one, REC->long_one, REC->long_one', "%u16.8; %x16.8; %u16.8;"),
    (
        '"state=%lu %ld %lx %u", (unsigned long)REC->state, REC->state, REC->state, REC->state',
        "state=%u24.4; %u24.4; %x24.4; %u24.4;",
    ),
    ('"comm=%s path=%s", REC->comm, __get_str(path)', "comm=%s28.16; path=%t44.4;"),
    ('"a: b"', "a: b"),
    *(
        (text, None)
        for text in (
            '"%03d", REC->pid',
            '"%p", REC->long_one',
            '"%ld", REC->pid',
            '"%d", REC->long_one',
            '"%d", REC->small',
            '"%s", REC->path',
            '"%s", __get_str(comm)',
            '"%s", __get_str(raw)',
            '"%d", REC->comm',
            '"%d", REC->missing',
            '"%d", REC->pid + 1',
            '"%d %d", REC->pid',
            '"%d", REC->pid, REC->pid',
            '"%d%%", REC->pid',
            '"%s", REC->pid ? "a" : "b"',
            '"%s", __print_flags(REC->state, "|", { 1, "a" })',
            '"a\\n"',
            "no text",
        )
    ),
]


def tracing_data(*texts: str) -> bytes:
    """Return a header of formats, as perf writes it."""

    def sized(text: bytes) -> bytes:
        return len(text).to_bytes(8, "little") + text

    head = b"\x17\x08\x44tracing0.6\0\0\x08" + (4096).to_bytes(4, "little")
    pages = b"header_page\0" + sized(b"page") + b"header_event\0" + sized(b"event")
    events = b"".join(sized(text.encode()) for text in texts)
    return head + pages + bytes(4) + (1).to_bytes(4, "little") + b"sched\0" + len(texts).to_bytes(4, "little") + events


def words(*texts: str) -> List[str]:
    return perf_formats.filter_arguments(perf_formats.formats(tracing_data(*texts)))


def is_unknown(*texts: str) -> bool:
    try:
        words(*texts)
    except perf_data.Unknown:
        return True
    return False


def check_formats() -> None:
    """Check what is made of the formats of old and new kernels, and what is refused."""
    told = words(switch_format(), waking_format(False))
    wanted = ["sched_waking:301:40:0:8,24,28,36,-1", "sched_switch:300:64:8:8,24,28,32,40,56,60", "states:6:256:1=S,2=D,128=I"]
    check(told == wanted, f"the words are {told}")
    told = words(switch_format(4, "(128-1)", OLD_STATES), waking_format(True))
    wanted = ["sched_waking:301:40:0:8,24,28,36,32", "sched_switch:300:60:4:8,24,28,32,36,52,56", "states:127:256:1=S,2=D,64=x"]
    check(told == wanted, f"the words of an old kernel are {told}")
    for printed, wanted_text in OTHER_TEXTS:
        told = words(waking_format(False), other_format("sched_other", printed))[1:]
        wanted = [] if wanted_text is None else [f"other:sched:sched_other:302:56:{wanted_text}"]
        check(told == wanted, f"the word of {printed} is {told}")
    told = words(waking_format(False), *(other_format(f"x{at}", '"a"') for at in range(99)))
    check(len(told) == 1 + 64, f"{len(told)} words for 99 other events")
    for mask in ("1 << 99", "1 << -1", "(1", "x1", "1 | REC->x", "0", "(" * 600 + "1" + ")" * 600, "-9"):
        check(is_unknown(switch_format(8, mask)), f"a mask of {mask} is taken")
    for states in ("", '{ 0x01, "SS" ', '{ 08, "S" }', '{ 0x1, "toolongname" }', '{ 0x1, "S=D" }'):
        check(is_unknown(switch_format(8, "3", states)), f"states of {states} are taken")
    check(is_unknown(switch_format(2)), "a state of two bytes is taken")
    check(is_unknown(waking_format(False).replace("%03d", "%d")), "another text of a waking is taken")
    check(
        is_unknown(waking_format(False).replace("char comm[16]", "char comm[8]").replace("size:16", "size:8")), "a short name"
    )
    check(is_unknown("name: sched_process_exec\nID: 1\n"), "no event of the scheduler is taken")
    content, torn = tracing_data(switch_format(), waking_format(False)), 0
    for end in range(len(content)):
        try:
            perf_formats.formats(content[:end])
        except perf_data.Unknown:
            torn += 1
    check(torn == len(content), f"{len(content) - torn} of {len(content)} torn headers are taken")


def check_headers(folder: str) -> None:
    """Check that recordings whose header leads elsewhere have no formats."""
    draw, path = random.Random(1), os.path.join(folder, "hostile.data")
    head = [b"PERFILE2", (104).to_bytes(8, "little")] + [bytes(8)] * 11
    told = 0
    for _ in range(ROUNDS):
        parts = [*head]
        for _ in range(draw.randint(1, 6)):
            parts[draw.randint(1, 12)] = draw.choice([0, 2, 3, 104, 1 << 31, 1 << 63, (1 << 64) - 1]).to_bytes(8, "little")
        with open(path, "wb") as file:
            file.write(b"".join(parts)[: draw.choice([8, 100, 104])] + draw.randbytes(draw.choice([0, 15, 400])))
        try:
            perf_formats.formats(perf_data.tracing_data(path))
        except perf_data.Unknown:
            told += 1
    check(told == ROUNDS, f"{ROUNDS - told} of {ROUNDS} false headers have formats")


# ---- blocks


def block(what: bytes, text: bytes = b"", lines: int = 0) -> bytes:
    return blocks.HEAD.pack(blocks.MARK, what, len(text), lines, 0) + text


def check_blocks() -> None:
    """Check that blocks are taken only if they are whole and there is a last one, and what a sink takes that begins again."""
    good = block(b"L", b"one\n", 1) + block(b"T", b"two\n") + block(b"E")
    found = list(blocks.blocks(io.BytesIO(good + b"three\n"), None))
    check(
        found == [(b"L", b"one\n", 1), (b"T", b"two\n", 0), (b"E", b"", 0), (b"T", b"three\n", 0), (b"E", b"", 0)], f"{found}"
    )
    bad = [good[:end] for end in range(len(good))] + [
        b"a text of perf\n" * 9,
        blocks.HEAD.pack(b"\0hd", b"L", 1 << 31, 0, 0),
    ]
    bad.append(blocks.HEAD.pack(b"\0hd", b"M", blocks.PIECE_ROOM + 1, 0, 0))
    refused, memory = 0, blocks.Memory()
    for text in bad:
        try:
            list(blocks.blocks(io.BytesIO(text), memory))
        except blocks.Unfit:
            refused += 1
    check(refused == len(bad), f"{len(bad) - refused} of {len(bad)} torn blocks are taken")
    for text, is_same in ((b"abcdef", True), (b"abcXef", False), (b"ab", False)):
        file = io.BytesIO()
        sink = blocks.Sink(file)
        sink.write(b"ab")
        sink.write(b"cd")
        sink.begin_again()
        try:
            for at in range(len(text)):
                sink.write(text[at : at + 1])
            sink.check()
            is_taken = True
        except ConversionError:
            is_taken = False
        check(is_taken == is_same and (not is_same or file.getvalue() == text), f"{text} after abcd: {file.getvalue()}")


# ---- recordings


class Turned(NamedTuple):
    """What a tool writes on standard output and on standard error, and its status."""

    trace: bytes
    said: bytes
    status: int


def turned(tools: str, path: str, programs: str = "") -> Turned:
    """Return what the converter in that folder makes of a recording, with the programs in the folder `programs`, if one is
    named."""
    environ = {**os.environ, "PATH": f"{programs}:{os.environ['PATH']}" if programs else os.environ["PATH"]}
    words = [sys.executable, os.path.join(tools, converter(path)), path]
    ran = subprocess.run(words, capture_output=True, timeout=LIMIT, env=environ)
    return Turned(ran.stdout, ran.stderr, ran.returncode)


def converter(path: str) -> str:
    """Return the name of the script that converts a recording of that path."""
    return "from-perf" if path.endswith(".data") else "from-trace-cmd"


# Threads with names that mislead, which wake each other; a few end, and are replaced by others of another name.
NAMES = r"""
import os, threading
names = [b"a\nb", b"x[3]", b"a ==> b", b"# no", b" lead", b"tail ", b"pid=7", b"\xe9\xff", b"q\"\\"]
names += [b"fifteen bytes-1", b"-12 [003] x"]
def work(name, mine, other):
    open("/proc/thread-self/comm", "wb").write(name)
    for _ in range(30):
        os.read(mine, 1)
        os.write(other, b"x")
for _ in range(3):
    pipes = [os.pipe() for _ in names]
    ends = [(name, pipes[at][0], pipes[(at + 1) % len(names)][1]) for at, name in enumerate(names)]
    threads = [threading.Thread(target=work, args=end) for end in ends]
    for thread in threads:
        thread.start()
    os.write(pipes[0][1], b"x")
    for thread in threads:
        thread.join()
"""
EXEC = "for i in $(seq 60); do /bin/true & /bin/echo x >/dev/null; done; wait; exec /bin/true"


def pipes(count: int) -> List[str]:
    return ["perf", "bench", "sched", "pipe", "-l", str(count)]


OTHERS = [
    "-esched:sched_migrate_task",
    "-eirq:irq_handler_entry",
    "-ecycles",
    "-etimer:timer_start",
    "-esched:sched_process_exec",
]
RECORDINGS: Dict[str, List[str]] = {
    "plain": ["-a", "-m", "4M", *SCHED, *pipes(20000)],
    "lost": ["-a", "-m", "16", *SCHED, "perf", "bench", "sched", "messaging", "-l", "100"],
    "packed": ["-a", "-z", "-m", "4M", *SCHED, *pipes(3000)],
    "chains": ["-a", "-g", "-m", "4M", *SCHED, *pipes(2000)],
    "one task": [*SCHED, *pipes(2000)],
    "others": ["-a", "-m", "4M", *SCHED, *OTHERS, "bash", "-c", EXEC],
    "few": ["-a", "-m", "4M", SCHED[0], *OTHERS[:2], *pipes(1000)],
    "mixed": ["-a", "-m", "4M", *SCHED, "-esched:sched_stat_runtime", *pipes(10000)],
    # Without a switch, nothing tells the task of an event if that has ended, as other tasks of the machine may.
    "rare": ["-m", "4M", SCHED[2], "-esched:sched_stat_runtime", *OTHERS[:2], *pipes(10000)],
    "names": ["-a", "-m", "4M", *SCHED, sys.executable, "-c", NAMES],
    "exec": ["-a", "-m", "4M", *SCHED, "bash", "-c", EXEC],
    "overwritten": ["-a", "--overwrite", "-m", "16", *SCHED, *pipes(20000)],
    "container": ["-a", "-m", "4M", *SCHED, *pipes(10000)],
}
# In which perf's tasks have other numbers than the machine's, as in a container.
CONTAINER = ["unshare", "--mount", "--pid", "--fork", "--mount-proc"]


def record(folder: str) -> Dict[str, str]:
    """Make the recordings that perf can make here, and return their paths by name."""
    made = {}
    for name in RECORDINGS:
        path = os.path.join(folder, name.replace(" ", "-") + ".data")
        ran = record_again(name, path)
        if ran.returncode == 0:
            made[name] = path
        else:
            print(f"not tried: {name}: {ran.stderr.decode(errors='replace').strip()[-200:]}")
    return made


def record_again(name: str, path: str) -> "subprocess.CompletedProcess[bytes]":
    """Make one of these recordings by perf."""
    words = [*(CONTAINER if name == "container" else []), "perf", "record", "-q", "-o", path, *RECORDINGS[name]]
    return subprocess.run(words, capture_output=True, timeout=LIMIT)


def program(folder: str, name: str, text: str) -> str:
    """Make a folder with a program of that name, and return the folder."""
    os.makedirs(folder, exist_ok=True)
    path = os.path.join(folder, name)
    with open(path, "w", encoding="ascii") as file:
        file.write(text)
    os.chmod(path, 0o755)
    return folder


def copied(folder: str, name: str, tools: str = TOOLS, more: str = "") -> str:
    """Return a copy of the tools, with what is compiled for them if these have it, and with `more` at the end of
    perf_formats.py."""
    copy = os.path.join(folder, name, "tools")
    ignored = shutil.ignore_patterns("__pycache__", *(["out"] if tools == TOOLS else []))
    shutil.copytree(tools, copy, ignore=ignored)
    for part in ("helpers", "python"):
        shutil.copytree(os.path.join(os.path.dirname(tools), part), os.path.join(folder, name, part), ignore=ignored)
    formats = os.path.join(folder, name, "python", "histdesk", "convert", "perf_formats.py")
    with open(formats, "a", encoding="ascii") as file:
        file.write(more)
    return copy


def compiled(tools: str) -> str:
    """Return the folder of what is compiled for these tools."""
    return os.path.join(os.path.dirname(tools), "helpers", "out")


def built(folder: str) -> str:
    """Return a copy of the tools, with what is compiled for them."""
    tools = copied(folder, "quick")
    words = [os.path.join(ROOT, "build", "helpers"), os.path.dirname(compiled(tools))]
    ran = subprocess.run(words, capture_output=True, timeout=LIMIT)
    check(ran.returncode == 0 and not ran.stderr, f"compiling: status {ran.returncode}, {ran.stderr.decode()}")
    return tools


def check_recordings(folder: str, made: Dict[str, str], slow: str, quick: str) -> None:
    """Check that both ways give the same, and that the quick one is taken."""
    calls = os.path.join(folder, "calls")
    watch = f'#!/bin/bash\necho "$*" >>{calls}\nexec {shutil.which("perf")} "$@"\n'
    watched = program(os.path.join(folder, "watched"), "perf", watch)
    for name, path in made.items():
        # What happens on the machine may leave an event whose task only the slow way knows: then the recording is made again.
        for is_last in (False, True):
            wanted, found = turned(slow, path), turned(quick, path, watched)
            with open(calls, encoding="ascii") as file:
                told = file.read().splitlines()
            os.remove(calls)
            # What a packed recording has is first seen by what perf prints.
            is_quick = len(told) == (2 if name == "packed" else 1) and "--dlfilter" in told[-1]
            if is_last or is_quick or record_again(name, path).returncode:
                break
        is_same = found == wanted and len(wanted.trace) > 0
        check(is_same, f"{name}: {len(wanted.trace)} bytes the slow way, {len(found.trace)} quickly: {found.said[-300:]!r}")
        check(is_quick, f"{name}: not turned quickly: {told}")
        check(name != "lost" or b" EVENTS]" in found.trace, "no events were lost")
        check(name != "names" or b"would mislead" in found.said, f"no names are odd: {found.said!r}")
        check((b"those of a container" in found.said) == (name == "container"), f"whose numbers: {found.said!r}")
        check(name != "overwritten" or b"\n##### CPU " in b"\n" + found.trace, "no buffer is said to start")


# ---- recordings of trace-cmd

# A kernel may lack files that trace-cmd writes to: plain ones stand in for them, in a mount namespace of its own.
STAND_INS = """
cd -- "$0"
echo 1 >one
mount --bind one /proc/sys/kernel/ftrace_enabled
for name in set_{ftrace_filter,ftrace_notrace,graph_function,graph_notrace,ftrace_pid,ftrace_notrace_pid} set_event_{,no}pid; do
    file=/sys/kernel/tracing/$name
    [[ ! -e $file ]] || { : >"$name" && mount --bind "$name" "$file"; }
done
exec trace-cmd record "$@"
"""
EVENTS = [word for name in _schema.TRACED_EVENTS for word in ("-e", name)]
OTHER_EVENTS = ["-e", "irq", "-e", "timer_start", "-e", "sched_migrate_task"]
# The name of a buffer, which is an instance of tracefs while it is recorded, and stays if that fails.
INSTANCE = "histdesk-quickly"
# What each recording is of, and whether it is converted the quick way.
BY_TRACE_CMD: Dict[str, Tuple[List[str], bool]] = {
    "plain": (["-b", "8192", *EVENTS, *pipes(20000)], True),
    "lost": (["-b", "8", *EVENTS, "perf", "bench", "sched", "messaging", "-l", "100"], True),
    "others": (["-b", "8192", *EVENTS, *OTHER_EVENTS, "bash", "-c", EXEC], True),
    "names": (["-b", "8192", *EVENTS, sys.executable, "-c", NAMES], True),
    "few": (["-b", "8192", "-e", "sched_waking", *pipes(1000)], True),
    "no events": (["-b", "8192", "-e", "block_rq_issue", "/bin/true"], True),
    "buffers": (["-b", "8192", *EVENTS, "-B", INSTANCE, *EVENTS, *pipes(1000)], False),
}


@contextlib.contextmanager
def mounted() -> Iterator[None]:
    """Have tracefs mounted for so long."""
    is_there = os.path.exists("/sys/kernel/tracing/tracing_on")
    if not is_there:
        subprocess.run(["mount", "-t", "tracefs", "nodev", "/sys/kernel/tracing"], check=True)
    try:
        yield
    finally:
        if not is_there:
            subprocess.run(["umount", "-l", "/sys/kernel/tracing"], check=True)


@mounted()
def record_by_trace_cmd(folder: str) -> Dict[str, str]:
    """Make the recordings that trace-cmd can make here, and return their paths by name. trace-cmd uses the machine's own
    tracing, whose settings are put back after that."""
    made, settings = {}, {}
    for name in ("tracing_on", "buffer_size_kb"):
        with open(f"/sys/kernel/tracing/{name}", encoding="ascii") as file:
            settings[name] = file.read().split()[0]
    for name, (what, _) in BY_TRACE_CMD.items():
        path = os.path.join(folder, name.replace(" ", "-") + ".dat")
        command = ["unshare", "-m", "bash", "-c", STAND_INS, folder, "-o", path, *what]
        ran = subprocess.run(command, capture_output=True, timeout=LIMIT)
        if ran.returncode == 0 and os.path.exists(path):
            made[name] = path
        else:
            print(f"not tried: {name}, by trace-cmd: {ran.stderr.decode(errors='replace').strip().splitlines()[-1:]}")
    if os.path.isdir(f"/sys/kernel/tracing/instances/{INSTANCE}"):
        os.rmdir(f"/sys/kernel/tracing/instances/{INSTANCE}")
    for name, value in settings.items():
        with open(f"/sys/kernel/tracing/{name}", "w", encoding="ascii") as file:
            file.write(value)
    return made


def has_flags(path: str, trace: bytes) -> bool:
    """Return whether the events of a trace have the flags, in order, that trace-cmd prints in its latency layout."""
    told = subprocess.run(["trace-cmd", "report", "-l", "-i", path], capture_output=True, timeout=LIMIT)
    wanted = re.findall(rb"^.{8}-[0-9]+ +[0-9]+([^ 0-9][^ ]*) ", told.stdout, re.MULTILINE)
    return len(wanted) > 0 and wanted == re.findall(rb"^[^#].*?-[0-9]+ +\[[0-9]+\] ([^ 0-9][^ ]*) ", trace, re.MULTILINE)


def check_trace_cmd(folder: str, made: Dict[str, str], slow: str, quick: str) -> None:
    """Check that both ways give the same, and that the quick one is taken exactly if it should be."""
    ended = os.path.join(folder, "ended")
    real = os.path.join(compiled(quick), "trace_cmd_lines")
    watched = copied(folder, "watched-trace-cmd", quick)
    text = f'#!/bin/bash\n{real} "$@"\nstatus=$?\necho $status >{ended}\nexit $status\n'
    program(compiled(watched), "trace_cmd_lines", text)
    for name, path in made.items():
        wanted, found = turned(slow, path), turned(watched, path)
        with open(ended, encoding="ascii") as file:
            is_quick = file.read() == "0\n"
        is_same = found == wanted and len(wanted.trace + wanted.said) > 0
        check(is_same, f"{name}.dat: {len(wanted.trace)} bytes the slow way, {len(found.trace)} quickly: {found.said[-300:]!r}")
        check(is_quick == BY_TRACE_CMD[name][1], f"{name}.dat: {'' if is_quick else 'not '}turned quickly")
        check(name != "lost" or b" EVENTS]" in found.trace, "no events were lost")
        check(name != "names" or b"would mislead" in found.said, f"no names are odd: {found.said!r}")
        check(name != "plain" or has_flags(path, found.trace), "the events have other flags")


def check_false(folder: str, path: str, slow: str, quick: str) -> None:
    """Check programs that stand in for trace_cmd_lines, and one that stands in for a trace-cmd with other columns."""
    wanted = turned(slow, path)
    lines = wanted.trace.split(b"\n")
    first = b"\n".join(lines[1:2000]) + b"\n"
    for name, text in {
        "false": block(b"L", first.replace(b"pid=", b"pid=1"), 1999) + block(b"E"),
        "too short": block(b"L", first[: first.find(b"\n") + 1], 1) + block(b"E"),
        "torn": block(b"L", first, 1999) + b"torn",
        "nothing": b"",
    }.items():
        tools = copied(folder, f"false {name}", quick)
        with open(os.path.join(tools, "text"), "wb") as file:
            file.write(text)
        program(compiled(tools), "trace_cmd_lines", f"#!/bin/bash\nexec cat '{tools}/text'\n")
        found = turned(tools, path)
        check(found == wanted, f"lines, {name}: {len(found.trace)} of {len(wanted.trace)} bytes: {found.said[:200]!r}")
    script = f"#!/bin/bash\n{shutil.which('trace-cmd')} \"$@\" | sed -E 's/(\\[[0-9]+\\])/\\1 d..2./'\n"
    columns = program(os.path.join(folder, "other-columns"), "trace-cmd", script)
    wanted, found = turned(slow, path, columns), turned(quick, path, columns)
    check(found == wanted and b" d..2. " in found.trace, f"other columns: {len(found.trace)} bytes, {found.said[:200]!r}")


# ---- what is wrong on purpose

# Each changes what the filter is told, or fails before it is told anything.
PLANTED = {
    "a field elsewhere": 'old = event_argument\ndef event_argument(*a): return old(*a).replace(":8,24,28,", ":8,28,24,")\n',
    "a field outside": 'old = event_argument\ndef event_argument(*a): return old(*a).replace(":8,24,", ":8,4000,")\n',
    "another number": 'old = event_argument\ndef event_argument(*a): return old(*a).replace(":36:", ":40:")\n',
    "another state": 'old = states_argument\ndef states_argument(*a): return old(*a).replace("1=S", "1=D")\n',
    "no plus": 'old = states_argument\ndef states_argument(*a): return old(*a).replace(":256:", ":4096:")\n',
    "no word": 'old = event_argument\ndef event_argument(*a): return "x"\n',
    "many bits": 'old = states_argument\ndef states_argument(*a): return old(*a) + ",1=S" * 99\n',
    "a long text": 'old = states_argument\ndef states_argument(*a): return old(*a) + ",512=" + "S" * 99\n',
    "an error": "def event_argument(*a): raise Unknown\n",
}


def check_planted(folder: str, path: str, slow: str, quick: str) -> None:
    """Check that it is noticed if the filter is told something wrong."""
    wanted = turned(slow, path)
    for name, more in PLANTED.items():
        found = turned(copied(folder, f"planted {name}", quick, more), path)
        check(
            found == wanted,
            f"{name}: {len(found.trace)} of {len(wanted.trace)} bytes, status {found.status}: {found.said[:200]!r}",
        )


def check_stand_ins(folder: str, path: str, slow: str, quick: str) -> None:
    """Check a perf without filters, one that prints a text all the same, one that fails late, and one that writes what isn't
    so."""
    wanted, real = turned(slow, path), shutil.which("perf")
    lines = wanted.trace.split(b"\n")
    first = b"\n".join(lines[:100]) + b"\n"
    with open(os.path.join(folder, "late"), "wb") as file:
        file.write(block(b"L", first, 100) + block(b"L", b"".join(line + b"\n" for line in lines[100:9000]), 8900) + b"torn")
    with open(os.path.join(folder, "false"), "wb") as file:
        # There are so many blocks that some are written before it is noticed that they are false.
        false = block(b"L", first.replace(b"pid=", b"pid=1"), 100) * (2 * blocks.WAITING // len(first))
        file.write(false + block(b"A", b"a line\n", 1) + block(b"E"))
    front = f'#!/bin/bash\nif [[ $* != *--dlfilter* ]]; then exec {real} "$@"; fi\n'
    for name, text in {
        "no filters": "echo 'Error: unknown option dlfilter' >&2; exit 129",
        "text": "echo '    a 1 [000] 1.000000: x:'",
        "nothing": "exit 0",
        "late": f"cat {folder}/late; exit 0",
        "ended": f"cat {folder}/late; kill -9 $$",
    }.items():
        found = turned(quick, path, program(os.path.join(folder, f"stand-in {name}"), "perf", front + text + "\n"))
        check(found == wanted, f"perf, {name}: {len(found.trace)} of {len(wanted.trace)} bytes: {found.said[:200]!r}")
    found = turned(quick, path, program(os.path.join(folder, "stand-in false"), "perf", f"{front}cat {folder}/false\n"))
    check(found.status == 1 and b"take it away" in found.said, f"false lines: status {found.status}, {found.said!r}")


def check_closed(path: str, tools: str) -> None:
    """Check that a converter ends, and says nothing, if nobody reads its output any more."""
    tool = subprocess.Popen([os.path.join(tools, converter(path)), path], stdout=subprocess.PIPE, stderr=subprocess.PIPE)
    tool.stdout.read(1)
    tool.stdout.close()
    said = tool.stderr.read()
    check(tool.wait(LIMIT) == -signal.SIGPIPE and not said, f"a closed pipe: status {tool.returncode}, {said!r}")


def main() -> None:
    with tempfile.TemporaryDirectory() as folder:
        check_formats()
        check_headers(folder)
        check_blocks()
        if os.getuid() != 0 or not shutil.which("perf"):
            print("not tried: recordings: no perf, whose benchmarks are recorded, or not root")
            return
        slow, quick = copied(folder, "slow"), built(folder)
        if os.path.exists(os.path.join(compiled(quick), "perf_filter.so")):
            made = record(folder)
            check_recordings(folder, made, slow, quick)
            if "plain" in made:
                check_planted(folder, made["plain"], slow, quick)
                check_stand_ins(folder, made["plain"], slow, quick)
                check_closed(made["plain"], quick)
        else:
            print("not tried: recordings of perf: the filter can't be compiled")
        if os.path.exists(os.path.join(compiled(quick), "trace_cmd_lines")) and shutil.which("trace-cmd"):
            made = record_by_trace_cmd(folder)
            check_trace_cmd(folder, made, slow, quick)
            if "plain" in made:
                check_false(folder, made["plain"], slow, quick)
                check_closed(made["plain"], quick)
        else:
            print("not tried: recordings of trace-cmd: no trace-cmd, or its libraries' headers are missing")


main()
finish()
